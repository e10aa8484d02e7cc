# 12 lines 6 code 5 comments 1 blanks
# for people who read
/* a block
   of two lines */

variable "name" { # of whom
  default = "a # name"
}
c = <<EOT
# don't "
EOT
# a
