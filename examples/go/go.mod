module fuseworld

go 1.19
