%% SPDX-License-Identifier: Apache-2.0
%% In a node under test: does what the test asks, over a connection of its own beside the distribution. It connects to the
%% test's port, and ends the node with that connection.
-module(test_agent).
-export([main/1, row/1, gone_with_its_controller/1, connect_at/2, is_idle/0, is_asked/1, is_agreed/0, sink/0, flood/2, watch/1, is_down/1]).
-export([stay_up/2, traffic/2]).
-export([up_end/1, is_held/1, take_descriptors/1, give_descriptors/0, libraries/0, traffic_observed/2, reconnect/2, memory/0]).
-export([crowd/2, crowd_closed/0, change_cookie_once_asked/2]).

main([Port]) ->
    spawn(fun() ->
                  {ok, Socket} = gen_tcp:connect({127, 0, 0, 1}, list_to_integer(Port), [binary, {packet, 4}, {active, false}]),
                  serve(Socket)
          end).

serve(Socket) ->
    case gen_tcp:recv(Socket, 0) of
        {ok, Bin} ->
            {Ref, {M, F, A}} = binary_to_term(Bin),
            spawn(fun() -> gen_tcp:send(Socket, term_to_binary({Ref, answer(M, F, A)})) end),
            serve(Socket);
        {error, _} -> halt(0)
    end.

answer(M, F, A) ->
    try {ok, apply(M, F, A)}
    catch Class:Reason:Stack -> {Class, Reason, Stack}
    end.

%% How net_kernel sees a node: {State, {OwnAddress, PeerAddress}}, or none. The places of its rows are those of OTP 25 to 29, and that of
%% the peer's address in a row's.
row(Node) ->
    case ets:lookup(sys_dist, Node) of
        [Row] -> {element(4, Row), addresses(element(8, Row))};
        [] -> none
    end.

addresses(undefined) -> none;
addresses(Address) ->
    Peer = {ok, element(2, Address)},
    case [inet:sockname(Port) || Port <- erlang:ports(), inet:peername(Port) =:= Peer] of
        [Own] -> {Own, Peer};
        _ -> none
    end.

%% Disconnects: once the node's controller is gone, nodes() has the node no more.
gone_with_its_controller(Node) ->
    [Row] = ets:lookup(sys_dist, Node),
    Controller = element(6, Row),
    Ref = monitor(case is_port(Controller) of true -> port; false -> process end, Controller),
    true = erlang:disconnect_node(Node),
    receive {'DOWN', Ref, _, _, _} -> false = lists:member(Node, nodes()), ok after 20000 -> timeout end.

%% connect_node at a moment of the system's clock, in nanoseconds: it is busy for the last milliseconds.
connect_at(Node, Moment) ->
    receive after max(0, (Moment - erlang:system_time(nanosecond)) div 1000000 - 2) -> ok end,
    busy_until(Moment),
    net_kernel:connect_node(Node).

busy_until(Moment) ->
    case erlang:system_time(nanosecond) < Moment of
        true -> busy_until(Moment);
        false -> ok
    end.

%% Is nobody about to ask net_kernel for a connection? It has done what it was asked before.
is_idle() ->
    About = [Pid || Pid <- processes(), {current_function, {Module, Function, _}} <- [process_info(Pid, current_function)],
                    lists:member({Module, Function}, [{?MODULE, connect_at}, {?MODULE, busy_until}, {net_kernel, connect_node}])],
    _ = net_kernel:longnames(),
    About =:= [].

%% Has net_kernel been asked to take a connection of this node, and not answered yet?
is_asked(Node) ->
    {messages, Messages} = process_info(whereis(net_kernel), messages),
    [] =/= [asked || {_, {accept_pending, _, Peer, _}} <- Messages, Peer =:= Node].

%% The end that is up with a node; and does a frame wait until it is gone?
up_end(Peer) ->
    [{node, Node, _, _, _}] = ets:lookup(distnode_core, node),
    distnode_nif:up_end(Node, atom_to_binary(Peer, utf8)).

is_held(Id) ->
    {messages, Messages} = process_info(whereis(distnode_core), messages),
    [] =/= [held || {'$gen_call', _, {end_shown, Shown}} <- Messages, Shown =:= Id].

%% All of this emulator's descriptors but so many are taken, until they are given back.
take_descriptors(Left) ->
    Self = self(),
    Pid = spawn(fun() ->
                        Files = open_files(file:open("/dev/null", [read, raw])),
                        [ok = file:close(File) || File <- lists:sublist(Files, Left)],
                        Self ! {self(), taken},
                        receive {give, From} -> [file:close(File) || File <- lists:nthtail(Left, Files)], From ! given end
                end),
    true = register(descriptors, Pid),
    receive {Pid, taken} -> ok end.

open_files({ok, File}) -> [File | open_files(file:open("/dev/null", [read, raw]))];
open_files({error, emfile}) -> [].

give_descriptors() ->
    descriptors ! {give, self()},
    receive given -> ok end.

%% The folders of the libraries that are in memory, where that can be seen.
libraries() ->
    case file:read_file("/proc/self/maps") of
        {ok, Text} ->
            {match, Found} = re:run(Text, "([^/]*)/priv/distnode_nif\\.so", [global, {capture, all_but_first, list}]),
            lists:usort(lists:append(Found));
        {error, enoent} -> unknown
    end.

%% Is each peer that net_kernel counts as up also up in the node, on the end whose process is net_kernel's owner, and the other
%% way round; and is no other end open, and does nobody wait?
is_agreed() ->
    #{up := Up, open := Open, wants := Wants} = distnode_core:table(),
    Node = lists:sort([{binary_to_atom(Peer), Owner} || {Peer, _, _, _, up, Owner} <- Up]),
    Kernel = lists:sort([{element(2, Row), element(5, Row)} || Row <- ets:tab2list(sys_dist),
                                                               element(4, Row) =:= up, element(11, Row) =:= static]),
    case Node =:= Kernel andalso length(Up) =:= length(Node) andalso Open =:= length(Up) andalso Wants =:= [] of
        true -> true;
        false -> {differ, Up, Open, Wants, Kernel}
    end.

%% Connects to and disconnects from these nodes at random until a moment of the system's clock: how many times.
traffic(Nodes, Until) -> traffic(Nodes, Until, 0).

traffic(Nodes, Until, N) ->
    case erlang:system_time(millisecond) >= Until of
        true -> N;
        false ->
            Node = lists:nth(rand:uniform(length(Nodes)), Nodes),
            case rand:uniform(9) of
                X when X < 7 -> spawn(fun() -> net_kernel:connect_node(Node) end);
                X when X < 9 -> erlang:disconnect_node(Node);
                9 -> {nobody, Node} ! hello
            end,
            receive after rand:uniform(8) - 1 -> traffic(Nodes, Until, N + 1) end
    end.

%% Both at once: {Times, Looks, Apart}.
traffic_observed(Nodes, Until) ->
    Self = self(),
    Pid = spawn_link(fun() -> Self ! {self(), observe(Until)} end),
    Times = traffic(Nodes, Until),
    receive {Pid, {Looks, Apart}} -> {Times, Looks, Apart} end.

%% Compares the tables while they change, until a moment of the system's clock: {Looks, Apart}. A peer that net_kernel counts as
%% up, by one owner in two looks, has an end that is up in the node between the two. Apart are those of which this was not so for
%% a second.
observe(Until) -> observe(Until, #{}, 0, []).

observe(Until, Since, Looks, Apart) ->
    case erlang:system_time(millisecond) >= Until of
        true -> {Looks, Apart};
        false ->
            Now = erlang:monotonic_time(millisecond),
            Again = maps:from_list([{Row, maps:get(Row, Since, Now)} || Row <- missing_in_node()]),
            Late = [Row || {Row, First} <- maps:to_list(Again), Now - First > 1000],
            receive after 5 -> observe(Until, Again, Looks + 1, lists:usort(Late ++ Apart)) end
    end.

missing_in_node() ->
    Before = rows_up(),
    #{up := Up} = distnode_core:table(),
    Peers = [binary_to_atom(element(1, Entry)) || Entry <- Up],
    [Row || {Peer, _} = Row <- rows_up(), lists:member(Row, Before), not lists:member(Peer, Peers)].

rows_up() ->
    [{element(2, Row), element(5, Row)} || Row <- ets:tab2list(sys_dist), element(4, Row) =:= up, element(11, Row) =:= static].

%% Connects to a node and disconnects so many times: the microseconds of each connect, the least first, and then `refused` for each
%% that was answered false.
reconnect(Node, N) -> lists:sort([reconnect(Node) || _ <- lists:seq(1, N)]).

reconnect(Node) ->
    case timer:tc(net_kernel, connect_node, [Node]) of
        {Took, true} ->
            true = monitor_node(Node, true),
            true = erlang:disconnect_node(Node),
            receive {nodedown, Node} -> Took after 20000 -> error({still_up, Node}) end;
        {_, false} -> refused
    end.

%% So many strangers without sockets, one after the other: each has said its name at the core, and has its end open. It answers how
%% many ends are open then; crowd_closed/0, which of them got a message that theirs is closed.
crowd(N, Flags) ->
    Self = self(),
    Crowd = spawn(fun() ->
                          Pids = [member(I, Flags) || I <- lists:seq(1, N)],
                          Self ! {self(), all_came},
                          receive {closed, From} -> From ! {self(), [I || {I, Pid} <- Pids, is_closed(Pid)]} end,
                          [exit(Pid, kill) || {_, Pid} <- Pids]
                  end),
    true = register(crowd, Crowd),
    receive {Crowd, all_came} -> maps:get(open, distnode_core:table()) end.

member(I, Flags) ->
    Self = self(),
    Name = iolist_to_binary(io_lib:format("stranger~b@127.0.0.1", [I])),
    Frame = <<$N, Flags:64, 7:32, (byte_size(Name)):16, Name/binary>>,
    Pid = spawn(fun() ->
                        {ok, #{id := Id}, {more, [<<"sok">>, <<$N, _/binary>>]}} = distnode_core:arrived(Frame, distnode_access:of_peer(Name, []), 0),
                        Self ! {self(), came},
                        stay(Id, false)
                end),
    receive {Pid, came} -> {I, Pid} end.

stay(Id, IsClosed) ->
    receive
        {distnode, {closed, Id, 'GaveUp'}} -> stay(Id, true);
        {is_closed, From} ->
            From ! {self(), IsClosed},
            stay(Id, IsClosed)
    end.

is_closed(Pid) ->
    Pid ! {is_closed, self()},
    receive {Pid, IsClosed} -> IsClosed end.

crowd_closed() ->
    Crowd = whereis(crowd),
    Crowd ! {closed, self()},
    receive {Crowd, Closed} -> Closed after 60000 -> timeout end.

%% Once dist_util has asked for the cookie of this node, it is another one, whoever asks next.
change_cookie_once_asked(Node, Cookie) ->
    sys:install(auth, {fun(_, {in, {'$gen_call', {Pid, _}, {get_cookie, Asked}}}, _) when Asked =:= Node ->
                               {current_stacktrace, Stack} = process_info(Pid, current_stacktrace),
                               case [Module || {Module, _, _, _} <- Stack, not lists:member(Module, [gen, gen_server, auth, erlang])] of
                                   [dist_util | _] ->
                                       auth ! {'$gen_call', {spawn(fun() -> ok end), make_ref()}, {set_cookie, Node, Cookie}},
                                       done;
                                   _ -> waiting
                               end;
                          (State, _, _) -> State
                       end, waiting}).

memory() ->
    {ok, Text} = file:read_file("/proc/self/status"),
    {match, [Kilobytes]} = re:run(Text, "VmRSS:\\s+([0-9]+)", [{capture, all_but_first, list}]),
    list_to_integer(Kilobytes).

sink() ->
    Pid = spawn(fun() -> count(0) end),
    _ = [unregister(sink) || whereis(sink) =/= undefined],
    register(sink, Pid).

count(N) ->
    receive
        {last, From} -> From ! {counted, N}, count(0);
        _ -> count(N + 1)
    end.

%% Sends so many messages to the sink of a node: how many it counted.
flood(Node, N) ->
    _ = [{sink, Node} ! {a, <<"sixteen bytes ok">>} || _ <- lists:seq(1, N)],
    {sink, Node} ! {last, self()},
    receive {counted, Counted} -> Counted after 60000 -> timeout end.

%% Monitors a node, and answers later whether it was noticed that the node is down.
watch(Node) ->
    Self = self(),
    Pid = spawn(fun() ->
                        true = monitor_node(Node, true),
                        Self ! {self(), watching},
                        receive {nodedown, Node} -> ok end,
                        receive {is_down, From} -> From ! {down, Node} end
                end),
    register(watch, Pid),
    receive {Pid, watching} -> ok end.

is_down(Node) ->
    watch ! {is_down, self()},
    receive {down, Node} -> true after 20000 -> timeout end.

%% Waits until so many packets without a message have come from a node: true where it was up the whole time.
stay_up(Node, Ticks) ->
    true = monitor_node(Node, true),
    stay_up(Node, received(Node) + Ticks, erlang:monotonic_time(millisecond) + 20000).

stay_up(Node, Target, Deadline) ->
    case {received(Node) >= Target, erlang:monotonic_time(millisecond) > Deadline} of
        {true, _} -> monitor_node(Node, false);
        {false, true} -> timeout;
        {false, false} -> receive {nodedown, Node} -> down after 100 -> stay_up(Node, Target, Deadline) end
    end.

received(Node) ->
    {ok, Info} = net_kernel:node_info(Node),
    proplists:get_value(in, Info).
