# 8 lines 4 code 3 comments 1 blanks
# for people who read

select User { name } # all
filter .name = 'a # name';
select $$a "text
# none$$;
# a
