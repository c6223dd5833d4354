"""What a page with a picture has beside the picture: its looks, and its scripts, which are joined into one."""
