"""The RIP router (docs/RIP.md). Sections in its files are those of RFC 2453."""
