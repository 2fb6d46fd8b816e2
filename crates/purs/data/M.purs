module M where
x = 1
