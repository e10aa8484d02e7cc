// 9 lines 5 code 3 comments 1 blanks
/* a block
   and its end */

public void OnPluginStart()
{
	char quote = '"'; // once
	PrintToServer("/* none %c", quote);
}
