%% A server over a Unix socket: a process for each session, and one for each counter.
%% "ping" is answered "pong", "bump N" the number of times that counter N was bumped.
-module(bumped).
-export([serve/1]).

serve([Path]) ->
    file:delete(Path),
    Counters = list_to_tuple([spawn(fun() -> counter(0) end) || _ <- lists:seq(1, 64)]),
    {ok, Listener} = gen_tcp:listen(0, [binary, {ifaddr, {local, Path}}, {packet, line}, {active, false}, {backlog, 128}]),
    io:format("ready~n"),
    accept(Listener, Counters).

accept(Listener, Counters) ->
    {ok, Socket} = gen_tcp:accept(Listener),
    Session = spawn(fun() -> receive go -> inet:setopts(Socket, [{active, true}]), session(Socket, Counters) end end),
    gen_tcp:controlling_process(Socket, Session),
    Session ! go,
    accept(Listener, Counters).

counter(Count) ->
    receive
        {bump, From} ->
            From ! {count, Count + 1},
            counter(Count + 1)
    end.

session(Socket, Counters) ->
    receive
        {tcp, Socket, <<"ping", _/binary>>} ->
            gen_tcp:send(Socket, <<"pong\n">>),
            session(Socket, Counters);
        {tcp, Socket, <<"bump ", Rest/binary>>} ->
            Number = binary_to_integer(binary:part(Rest, 0, byte_size(Rest) - 1)),
            element(Number + 1, Counters) ! {bump, self()},
            receive {count, Count} -> gen_tcp:send(Socket, [integer_to_binary(Count), $\n]) end,
            session(Socket, Counters);
        {tcp_closed, Socket} ->
            ok
    end.
