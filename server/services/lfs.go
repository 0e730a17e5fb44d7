package services

// NoLFS is the answer to clients of Git LFS.
const NoLFS = "this server keeps no files of Git LFS; set lfs.url to a server that does, or push them as Git's own objects (git lfs migrate export)"
