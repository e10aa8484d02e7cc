# 9 lines 6 code 2 comments 1 blanks
# for people who read

defmodule Greeter do
  @doc """
  # text of the documentation
  """
  def greet(name), do: IO.puts("# no comment #{name}") # once
end
