readable x
