"""`once-part`: networks beyond the limits of `once`, in parts."""
