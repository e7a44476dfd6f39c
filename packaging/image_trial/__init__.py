"""What `packaging/try_image` does: it runs the commands of docs/IMAGE.md, and looks whether anything is lost.

containers  podman with a storage of its own, and the base of the image
page        the commands of the page, with what it says that they print
trial       the steps
"""
