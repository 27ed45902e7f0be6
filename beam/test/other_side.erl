%% SPDX-License-Identifier: Apache-2.0
%% The other side of a handshake by hand, frame by frame, as the ERTS User's Guide has it, over TCP or TLS as the nodes; and a relay
%% between a node and its peer that can stop without a word.
-module(other_side).
-export([port_of/2, connect/1, send/2, recv/2, close/1, say_name/3, status/1, challenge/1, reply/3, ack/2, is_silent/2]).
-export([accepts/1, say_challenge/3, full/2]).
-export([relay/1, freeze/1]).

%% The port of a node at the port mapper.
port_of(Short, Mapper) ->
    {ok, Socket} = gen_tcp:connect({127, 0, 0, 1}, Mapper, [binary, {active, false}]),
    Name = list_to_binary(Short),
    ok = gen_tcp:send(Socket, <<(byte_size(Name) + 1):16, $z, Name/binary>>),
    {ok, <<$w, 0, Port:16, _/binary>>} = gen_tcp:recv(Socket, 0, 5000),
    gen_tcp:close(Socket),
    Port.

connect(Port) ->
    Options = [binary, {active, false}],
    {ok, Socket} = case test_nodes:is_tls() of
                       false -> gen_tcp:connect({127, 0, 0, 1}, Port, [{packet, 2} | Options]);
                       true -> connect_tls(Port, [{packet, 4}, {nodelay, true}, {server_name_indication, "127.0.0.1"} | Options])
                   end,
    Socket.

connect_tls(Port, Options) ->
    {ok, _} = application:ensure_all_started(ssl),
    ssl:connect({127, 0, 0, 1}, Port, Options ++ test_certificates:client("node")).

send(Socket, Body) when is_port(Socket) -> gen_tcp:send(Socket, Body);
send(Socket, Body) -> ssl:send(Socket, Body).

recv(Socket, Wait) when is_port(Socket) -> gen_tcp:recv(Socket, 0, Wait);
recv(Socket, Wait) -> ssl:recv(Socket, 0, Wait).

%% ssl may wait for the other side.
close(Socket) when is_port(Socket) -> gen_tcp:close(Socket);
close(Socket) ->
    _ = spawn(ssl, close, [Socket]),
    ok.

say_name(Socket, Flags, Name) -> send(Socket, <<$N, Flags:64, 7:32, (byte_size(Name)):16, Name/binary>>).

say_challenge(Socket, Flags, Name) -> send(Socket, <<$N, Flags:64, 42:32, 7:32, (byte_size(Name)):16, Name/binary>>).

status(Socket) ->
    {ok, <<$s, Status/binary>>} = recv(Socket, 5000),
    Status.

challenge(Socket) ->
    {ok, <<$N, _Flags:64, Challenge:32, _Creation:32, Size:16, _Name:Size/binary>>} = recv(Socket, 5000),
    Challenge.

reply(Socket, Cookie, Challenge) -> send(Socket, <<$r, 42:32, (digest(Cookie, Challenge))/binary>>).

ack(Socket, Cookie) ->
    Digest = digest(Cookie, 42),
    {ok, <<$a, Digest/binary>>} = recv(Socket, 5000),
    ok.

digest(Cookie, Challenge) -> erlang:md5([Cookie, integer_to_list(Challenge)]).

is_silent(Socket, Wait) -> recv(Socket, Wait) =:= {error, timeout}.

%% Takes connections, over TCP alone, and does this with each: {Pid, Port}.
accepts(Body) ->
    {ok, Listen} = gen_tcp:listen(0, [binary, {packet, 2}, {active, false}, {ip, {127, 0, 0, 1}}]),
    {ok, Port} = inet:port(Listen),
    Pid = spawn(fun() -> accepts(Listen, Body) end),
    ok = gen_tcp:controlling_process(Listen, Pid),
    {Pid, Port}.

accepts(Listen, Body) ->
    {ok, Socket} = gen_tcp:accept(Listen),
    Pid = spawn_link(fun() -> receive taken -> Body(Socket) end end),
    ok = gen_tcp:controlling_process(Socket, Pid),
    Pid ! taken,
    accepts(Listen, Body).

%% A port to which no further connection comes, as to one of a host that is gone: its sockets, until they are closed.
full(Address, Port) ->
    {ok, Listen} = gen_tcp:listen(Port, [{ip, Address}, {backlog, 0}]),
    [Listen | fill(Address, Port)].

fill(Address, Port) ->
    case gen_tcp:connect(Address, Port, [], 300) of
        {ok, Socket} -> [Socket | fill(Address, Port)];
        {error, timeout} -> []
    end.

%% ---- the relay: it carries bytes to a port until it freezes, and then it reads nothing more and closes nothing

relay(To) ->
    {ok, Listen} = gen_tcp:listen(0, [binary, {active, false}, {ip, {127, 0, 0, 1}}]),
    {ok, Port} = inet:port(Listen),
    Relay = spawn(fun() -> relay_one(Listen, To) end),
    ok = gen_tcp:controlling_process(Listen, Relay),
    {Relay, Port}.

relay_one(Listen, To) ->
    {ok, One} = gen_tcp:accept(Listen),
    {ok, Other} = gen_tcp:connect({127, 0, 0, 1}, To, [binary, {active, false}]),
    carry(One, Other).

carry(One, Other) ->
    _ = [inet:setopts(Socket, [{active, once}]) || Socket <- [One, Other]],
    receive
        {tcp, One, Bytes} -> gen_tcp:send(Other, Bytes), carry(One, Other);
        {tcp, Other, Bytes} -> gen_tcp:send(One, Bytes), carry(One, Other);
        {tcp_closed, _} -> ok;
        {freeze, From} -> From ! {self(), frozen}, receive after infinity -> ok end
    end.

freeze(Relay) ->
    Relay ! {freeze, self()},
    receive {Relay, frozen} -> ok end.
