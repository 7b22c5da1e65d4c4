"""Two virtual machines that share a disk by DRBD, whose power and cable can be cut."""
