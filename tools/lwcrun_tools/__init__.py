"""The modules of the commands of `tools/`, of which the developers' scripts use some too."""
