; 11 lines 5 code 5 comments 1 blanks
; for people who read

section .text
start: mov eax, 1 ; one
msg db "; none", 0
	mov al, '"'
; a
	mov al, "'"
; b
dnl a
