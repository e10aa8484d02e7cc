-- 11 lines 4 code 6 comments 1 blanks
-- for people who read
/- a block /- in a block -/
   and its end -/

def name := "a -- name" -- of whom
theorem one : 1 = 1 := rfl
def path := r"C:\"
-- a
def raw := r#"a " /- b"#
-- b
