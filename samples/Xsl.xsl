<!-- 7 lines 3 code 3 comments 1 blanks -->
<!-- a block
     of two lines -->

<xsl:stylesheet version="1.0">
  <xsl:template match="/"/> <!-- all -->
</xsl:stylesheet>
