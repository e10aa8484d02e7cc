; 10 lines 5 code 4 comments 1 blanks
; for people who read

global start
start: mov eax, 1 ; one
msg: db '; none', 0
	mov al, '"'
; a
	db `it's`
; b
