"""The plain-text form of a net (docs/NETS.md): its reader, its writer and its warnings. The command is view/net.py."""
