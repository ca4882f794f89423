-module(transcode).
-export([main/0]).

% UTF-8 to UTF-16 and back (RFC 3629, RFC 2781). A byte that begins no character becomes U+FFFD.

main() ->
    Text = <<"gr",246/utf8,"n ",8364/utf8,128512/utf8>>,
    Wide = to_utf16(Text, <<>>),
    erlang:display(Wide),
    erlang:display(to_utf8(Wide) =:= {ok,Text}),
    erlang:display(to_utf16(<<255,"a">>, <<>>)),
    erlang:display(to_utf8(<<216,0>>)).

to_utf16(<<Char/utf8,Rest/binary>>, Done) -> to_utf16(Rest, <<Done/binary,Char/utf16>>);
to_utf16(<<_,Rest/binary>>, Done) -> to_utf16(Rest, <<Done/binary,16#fffd/utf16>>);
to_utf16(<<>>, Done) -> Done.

to_utf8(Wide) ->
    Narrow = << <<Char/utf8>> || <<Char/utf16>> <= Wide >>,
    case to_utf16(Narrow, <<>>) of
        Wide -> {ok,Narrow};
        _ -> {error,byte_size(Narrow)}
    end.
