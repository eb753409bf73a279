"""Hand-ins as they come: folders, and texts that are read leniently."""
