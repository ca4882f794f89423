-module(packet).
-export([main/0]).

% The header of an IPv4 packet (RFC 791, section 3.1), and a UDP datagram (RFC 768) inside it.

main() ->
    Datagram = <<53:16,4096:16,12:16,0:16,"dns!">>,
    Packet = <<4:4,5:4,0,32:16,7:16,2:3,0:13,64,17,0:16,10,0,0,1,10,0,0,2,Datagram/binary>>,
    erlang:display(parse(Packet)),
    erlang:display(parse(<<6:4,0:28>>)),
    erlang:display(parse(<<4:4,5:4,0,90:16>>)).

parse(<<4:4,Words:4,_:8,Length:16,Id:16,Flags:3,Offset:13,Ttl,Protocol,_Sum:16,
        Source:4/binary,Target:4/binary,Rest/binary>> = Packet)
        when Words >= 5, Length >= Words * 4, Length =< byte_size(Packet) ->
    Options = (Words - 5) * 4,
    Size = Length - Words * 4,
    case Rest of
        <<_:Options/binary,Payload:Size/binary,_/binary>> ->
            {ok,{Id,Flags,Offset,Ttl},{Source,Target},payload(Protocol,Payload)};
        _ ->
            {error,options}
    end;
parse(<<4:4,_/bitstring>>) -> {error,short};
parse(<<Version:4,_/bitstring>>) -> {error,{version,Version}}.

payload(17,<<From:16,To:16,Length:16,_:16,Data/binary>>) when Length =:= byte_size(Data) + 8 ->
    {udp,From,To,Data};
payload(Protocol,Data) ->
    {Protocol,Data}.
