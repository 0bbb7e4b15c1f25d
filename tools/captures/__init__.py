"""Captures for the bridge and its answers: from the network, from sound files, and back. Nothing here is proved."""
