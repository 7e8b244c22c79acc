"""The OSPF router (docs/OSPF.md). Sections in its files are those of RFC 2328."""
