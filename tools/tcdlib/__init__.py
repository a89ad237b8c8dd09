"""What the scripts of tools/ share: arguments, formats, names, the listing, a machine."""
