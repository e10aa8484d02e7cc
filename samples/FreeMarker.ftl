<#-- 12 lines 5 code 6 comments 1 blanks -->
<#-- a block
     of two lines -->

<#if name??>
<p>${name}</p> <#-- once -->
</#if>
<p>Don't</p>
<!-- a -->
<p>b</p>
[#-- a block
     of two lines --]
