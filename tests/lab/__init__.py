"""Hosts on one machine: network namespaces with links that can be cut, and disks that can lose their power."""
