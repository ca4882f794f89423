-module(header).
-export([main/0]).
main() -> <<V:4,H:4,T:8,L:16>> = <<69,0,24:16>>, erlang:display(V), erlang:display(H), erlang:display(L), <<P:8,C:3,D:13>> = <<17,16384:16>>, erlang:display(P), erlang:display(C).
