"""What the scripts of tools/ share: the files of bt878, the machine, the painter, and the cases that are tried.

None of it calls bt878 but `built`.
"""
