<!--- 9 lines 4 code 4 comments 1 blanks --->
<!--- a block <!--- in a block --->
      and its end --->

<cfset name = "a name">
<p>#name#</p> <!--- once --->
<p>Don't</p>
<!--- a --->
<p>b</p>
