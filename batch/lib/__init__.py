"""What the scripts of this folder share. Nothing of it is proved."""
