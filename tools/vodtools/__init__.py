"""What the operator's tools share: settings, the built program, an RTSP client, pictures."""
