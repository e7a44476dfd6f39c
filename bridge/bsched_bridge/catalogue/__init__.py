"""What clients download, and which files come back.

contents         files, command lines and signatures, as the operator wrote them
downloads        how the files are sent
output_files     what the catalogue says about output files, and the output that bsched compares
digest_programs  what is compared if equal files are too much to ask for
"""
