<%-- 9 lines 4 code 4 comments 1 blanks --%>
<%-- a block
     of two lines --%>

<%@ Page Language="C#" %>
<p><%= Name %></p> <%-- once --%>
<p>Don't</p>
<!-- a -->
<p>b</p>
