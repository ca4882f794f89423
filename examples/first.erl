-module(first).
-export([main/0]).
main() -> <<A:4,B:12>> = <<18,52>>, erlang:display(A), erlang:display(B).
