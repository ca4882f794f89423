-module(stream).
-export([main/0]).

% A stream of frames, each with its length in bytes before it, which comes in pieces.

main() ->
    Stream = << <<(byte_size(Body)):16,Body/binary>> || Body <- [<<"one">>,<<>>,<<"three">>] >>,
    {First,Second} = split_binary(Stream, 6),
    {Frames,Left} = frames(First, []),
    {More,Last} = frames(<<Left/binary,Second/binary>>, []),
    erlang:display(Frames),
    erlang:display(More),
    erlang:display({left,byte_size(Last)}).

frames(<<Size:16,Frame:Size/binary,Rest/binary>>, Found) -> frames(Rest, [Frame|Found]);
frames(Left, Found) -> {lists:reverse(Found),Left}.
