-module(broker).
-export([main/0,serve/2]).

% A broker that hands each published message to its subscribers; the messages share one binary.

main() ->
    Broker = spawn(broker, serve, [[],0]),
    Broker ! {subscribe,self()},
    Payload = <<0:800>>,
    Broker ! {publish,<<1,Payload/binary>>},
    Broker ! {publish,<<2,21:16/signed-little>>},
    Broker ! stop,
    collect(0).

collect(Seen) ->
    receive
        {message,<<1,Payload/binary>>} ->
            erlang:display({large,byte_size(Payload)}),
            collect(Seen + 1);
        {message,<<2,Degrees:16/signed-little>>} ->
            erlang:display({degrees,Degrees}),
            collect(Seen + 1);
        {closed,Count} when Count =:= Seen ->
            erlang:display({closed,Count})
    end.

serve(Subscribers, Count) ->
    receive
        {subscribe,Pid} when is_pid(Pid) ->
            serve([Pid|Subscribers], Count);
        {publish,Message} when is_binary(Message); is_bitstring(Message) ->
            [Subscriber ! {message,Message} || Subscriber <- Subscribers],
            serve(Subscribers, Count + 1);
        stop ->
            [Subscriber ! {closed,Count} || Subscriber <- Subscribers],
            ok
    end.
