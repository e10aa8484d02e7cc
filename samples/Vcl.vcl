# 11 lines 7 code 3 comments 1 blanks
# for people who read

vcl 4.0;
backend default { .host = "# none"; } # ours
sub vcl_synth {
  synthetic({"<p>
<a href="http://a.example/">a</a>
</p>"});
}
# a
