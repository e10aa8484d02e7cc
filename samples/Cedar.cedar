// 7 lines 4 code 2 comments 1 blanks
// who may read

permit (principal, action, resource)
when {
  resource.path like "//*" // once
};
