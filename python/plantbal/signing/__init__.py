"""Signatures by keys that people have, and time stamps: by OpenSSH, minisign and OpenSSL alone."""
