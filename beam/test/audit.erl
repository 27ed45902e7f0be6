%% SPDX-License-Identifier: Apache-2.0
%% Audited runs. Four emulators with the carrier connect, disconnect, change cookies, and are killed and come back, at random, and record
%% it (distnode_recording). Their recordings are put together to one script of four nodes. `distnode enact`, which is proved, plays it by
%% the model's rules, and has to print what the emulators did and what they show at the end. Then a frame is repeated, dropped or swapped
%% in a recording, and that audit has to fail.
%%
%% Beside them are strangers, who record nothing: an ordinary Erlang node with the cookie, `distping` again and again, and somebody without
%% the cookie who connects and says nothing, anything, or the name of one of the four. What they do is an `outside` line of the script.
%%
%% What is compared: each frame that an end took is the next one that was said on its connection; each call that the node took applies in
%% the model, and closes the same end for the same cause; who came up is up there, and so until its socket is gone; and at the end the
%% tables, the connections of all pairs, and the sockets of those that net_kernel shows.
-module(audit).
-export([main/1]).
-export([names/0, emulator/3, act/2, made_alike/1, all_connect/1, shown/1, recording/1, audit/2, said/1, is_refused/3, strangers/0, leave/1]).
-export([probe/1, scan/1]).

-define(QUIET, ["-connect_all", "false", "-kernel", "prevent_overlapping_partitions", "false"]).
-define(NAMES, ["a", "b", "c", "d"]).
-define(STRANGER, "o").
%% A script may have 1 MiB, so a longer run is made of several worlds, each with new emulators.
-define(ACTIONS_OF_A_WORLD, 5000).
%% Each emulator is killed once, and once more after so many of its actions on average.
-define(KILL_EACH, 350).

%% ACTIONS [CHANGES [SEED]]: so many changed recordings of each kind and each world.
main([Actions]) -> main([Actions, "1"]);
main([Actions, Changes]) -> main([Actions, Changes, integer_to_list(erlang:system_time(microsecond) rem 1000000)]);
main([Actions, Changes, Seed]) ->
    {_, OsPid} = test_nodes:port_mapper(),
    _ = rand:seed(exsss, list_to_integer(Seed)),
    io:format("seed ~s~n", [Seed]),
    Holds = try lists:all(fun(Number) -> world(Number, list_to_integer(Changes)) end, worlds(list_to_integer(Actions)))
            catch Class:Why:Stack -> io:format("FAILED: ~p~n", [{Class, Why, Stack}])
            end,
    os:cmd("kill " ++ integer_to_list(OsPid)),
    halt(case Holds of true -> 0; _ -> 1 end).

worlds(Actions) when Actions =< ?ACTIONS_OF_A_WORLD -> [Actions];
worlds(Actions) -> [?ACTIONS_OF_A_WORLD | worlds(Actions - ?ACTIONS_OF_A_WORLD)].

world(Actions, Changes) ->
    [ok = file:delete(File) || File <- filelib:wildcard(log("*.recording"))],
    {Kills, Shown, Recordings} = run(Actions),
    Holds = audit(Recordings, Shown),
    io:format("~b actions, ~b kills, ~ts~n", [Actions, Kills, said(Holds)]),
    Refused = [is_refused(Kind, Recordings, Shown) || element(1, Holds) =:= holds, _ <- lists:seq(1, Changes), Kind <- [repeated, dropped, swapped]],
    io:format("~b of ~b changed recordings refused~n", [length([yes || true <- Refused]), length(Refused)]),
    element(1, Holds) =:= holds andalso lists:all(fun(IsRefused) -> IsRefused end, Refused).

said({holds, Connections, Strangers, Happenings}) ->
    io_lib:format("~b connections, and ~b of strangers, ~b happenings: the audit holds", [Connections, Strangers, Happenings]);
said({refused, Why}) -> io_lib:format("the audit is refused: ~tp", [Why]).

is_refused(Kind, Recordings, Shown) ->
    {Changed, Where} = changed(Kind, Recordings),
    Outcome = audit(Changed, Shown),
    [io:format("~s and not refused: ~tp~n", [Kind, Where]) || element(1, Outcome) =:= holds],
    element(1, Outcome) =:= refused.

%% ---- a run

%% The kills; and what each emulator shows at the end, and has recorded until then.
run(Actions) ->
    Strangers = strangers(),
    Drivers = [spawn_driver(Name, Actions div length(?NAMES)) || Name <- ?NAMES],
    {Nodes, Kills} = lists:unzip([answer_of(Driver, 600000) || Driver <- Drivers]),
    leave(Strangers),
    made_alike(Nodes),
    all_connect(Nodes),
    Shown = [{Name, shown(Node)} || {Name, Node} <- lists:zip(?NAMES, Nodes)],
    Recordings = [{Name, recording(Name)} || Name <- ?NAMES],
    [begin Driver ! {self(), stop}, answer_of(Driver, 60000) end || Driver <- Drivers],
    {lists:sum(Kills), Shown, Recordings}.

%% Each emulator belongs to a process, which acts on it, and kills it now and then.
spawn_driver(Name, Actions) ->
    Self = self(),
    Seed = rand:uniform(1 bsl 32),
    spawn_link(fun() ->
                       _ = rand:seed(exsss, Seed),
                       Kills = lists:usort([rand:uniform(Actions) || _ <- lists:seq(0, Actions div ?KILL_EACH)]),
                       Node = drive(Name, emulator(Name), Actions, Kills),
                       Self ! {self(), {Node, length(Kills)}},
                       receive {Self, stop} -> Self ! {self(), test_nodes:kill(Node)} end
               end).

answer_of(Driver, Wait) ->
    receive {Driver, Answer} -> Answer
    after Wait -> error({no_answer, Driver})
    end.

%% One of the four has few numbers, and its node begins anew now and then.
emulator("d") -> emulator("d", ours, ["-kernel", "distnode_most_ends", "30"]);
emulator(Name) -> emulator(Name, ours, []).

emulator(Name, Kind, Arguments) ->
    File = log(io_lib:format("~s.~b.recording", [Name, erlang:unique_integer([positive])])),
    test_nodes:start(Name, Kind, Arguments ++ ["-kernel", "distnode_recording", [$", File, $"] | ?QUIET]).

%% Each has a file of its own, below the folder of its Erlang: the last line of one that was killed may be cut short.
recording(Name) ->
    Files = [File || Root <- ["" | string:lexemes(os:getenv("ROOTS", ""), " ")], File <- filelib:wildcard(Root ++ log(Name ++ ".*.recording"))],
    lists:append(lists:sort([begin {ok, Lines} = distnode_recording:read(File), Lines end || File <- Files])).

names() -> ?NAMES.

drive(_, Node, 0, _) -> Node;
drive(Name, Node, Left, Kills) ->
    case lists:member(Left, Kills) of
        true ->
            test_nodes:kill(Node),
            drive(Name, emulator(Name), Left - 1, Kills);
        false ->
            act(Name, Node),
            receive after rand:uniform(8) - 1 -> drive(Name, Node, Left - 1, Kills) end
    end.

act(Name, Node) -> act(Node, rand:uniform(100), peer(one_of([?STRANGER | ?NAMES -- [Name]]))).

%% Some of the connects wait for the next full 16 milliseconds, where they meet others.
act(Node, Kind, Peer) when Kind =< 40 -> begin_call(Node, net_kernel, connect_node, [Peer]);
act(Node, Kind, Peer) when Kind =< 60 ->
    Moment = (erlang:system_time(nanosecond) div 16000000 + 1) * 16000000,
    begin_call(Node, test_agent, connect_at, [Peer, Moment]);
act(Node, Kind, Peer) when Kind =< 94 -> begin_call(Node, erlang, disconnect_node, [Peer]);
act(Node, Kind, Peer) when Kind =< 98 -> begin_call(Node, erlang, set_cookie, [Peer, one_of([test, test, test, other])]);
act(Node, _, _) -> begin_call(Node, erlang, set_cookie, [one_of([test, test, test, other])]).

begin_call(Node, Module, Function, Arguments) -> test_nodes:call(Node, erlang, spawn, [Module, Function, Arguments]).

one_of(List) -> lists:nth(rand:uniform(length(List)), List).

%% ---- strangers

%% An ordinary node, and two processes that connect to the emulators until they are told to leave.
strangers() ->
    Node = test_nodes:start(?STRANGER, otp, ?QUIET),
    ok = file:write_file(log("cookie"), "test"),
    ok = file:change_mode(log("cookie"), 8#600),
    {Node, [spawn_link(?MODULE, Does, [Node]) || Does <- [probe, scan]]}.

leave({Node, Doers}) ->
    [begin Doer ! {self(), leave}, answer_of(Doer, 60000) end || Doer <- Doers],
    test_nodes:kill(Node).

%% `distping` probes one of the emulators, and the ordinary node connects to one, or disconnects.
probe(Node) ->
    Peer = peer(one_of(?NAMES)),
    begin_call(Node, one_of([net_kernel, net_kernel, erlang]), Peer),
    _ = os:cmd(os:getenv("DISTPING") ++ " --cookie " ++ log("cookie") ++ " " ++ atom_to_list(Peer) ++ " >/dev/null 2>&1"),
    goes_on(probe, Node).

begin_call(Node, net_kernel, Peer) -> begin_call(Node, net_kernel, connect_node, [Peer]);
begin_call(Node, erlang, Peer) -> begin_call(Node, erlang, disconnect_node, [Peer]).

%% Somebody connects to each emulator that is registered, and says something or nothing.
scan(Node) ->
    Registered = case erl_epmd:names({127, 0, 0, 1}) of {ok, Names} -> Names; {error, _} -> [] end,
    [scan_port(Port) || {Name, Port} <- Registered, lists:member(Name, ?NAMES)],
    goes_on(scan, Node).

scan_port(Port) ->
    case gen_tcp:connect({127, 0, 0, 1}, Port, [binary, {active, false}], 1000) of
        {ok, Socket} ->
            _ = gen_tcp:send(Socket, one_of(["", "GET / HTTP/1.0\r\n\r\n", <<0, 4, "name">>, <<0, 9, "half">>, name(one_of(?NAMES))])),
            _ = gen_tcp:recv(Socket, 0, rand:uniform(20)),
            gen_tcp:close(Socket);
        {error, _} -> ok
    end.

name(Name) ->
    Full = list_to_binary(Name ++ "@127.0.0.1"),
    Body = <<"N", 16#d07df7fbd:64, 99:32, (byte_size(Full)):16, Full/binary>>,
    <<(byte_size(Body)):16, Body/binary>>.

goes_on(Does, Node) ->
    receive {Asker, leave} -> Asker ! {self(), left}
    after rand:uniform(40) -> ?MODULE:Does(Node)
    end.

peer(Name) -> list_to_atom(Name ++ "@127.0.0.1").

%% Cookies are the same again, and nobody connects any more but by a call: what is still sent to a node that has just gone would dial it.
made_alike(Nodes) ->
    [ok = test_nodes:call(Node, application, set_env, [kernel, dist_auto_connect, never]) || Node <- Nodes],
    [true = test_nodes:call(Node, erlang, set_cookie, [test_nodes:name(Peer), test]) || Node <- Nodes, Peer <- Nodes],
    [true = test_nodes:wait(fun() -> test_nodes:call(Node, test_agent, is_idle, []) end, 20000) || Node <- Nodes],
    is_at_rest(Nodes).

all_connect(Nodes) ->
    true = test_nodes:wait(fun() ->
                                   [test_nodes:call(X, net_kernel, connect_node, [test_nodes:name(Y)]) || X <- Nodes, Y <- Nodes, X < Y],
                                   Names = [test_nodes:name(Node) || Node <- Nodes],
                                   [length([Y || Y <- test_nodes:call(Node, erlang, nodes, [connected]), lists:member(Y, Names)])
                                    || Node <- Nodes] =:= [3, 3, 3, 3]
                           end, 20000),
    is_at_rest(Nodes).

is_at_rest(Nodes) ->
    [true = test_nodes:wait(fun() -> test_nodes:call(Node, test_agent, is_agreed, []) end, 20000) || Node <- Nodes].

%% {Creation, [{Peer, Id, Common, Creation, Addresses of its socket}]}
shown(Node) ->
    #{up := Up} = test_nodes:call(Node, distnode_core, table, []),
    {test_nodes:call(Node, erts_internal, get_creation, []),
     lists:sort([{Peer, Id, Common, Creation, addresses(Node, Peer)} || {Peer, Id, Common, Creation, _, _} <- Up])}.

addresses(Node, Peer) ->
    {up, Addresses} = test_nodes:call(Node, test_agent, row, [binary_to_atom(Peer)]),
    Addresses.

%% ---- the audit

%% An end is {Node, Life, Id}: which incarnation of which node. lives: how often a node began; connections: of which a process made calls;
%% dialled: the peer of each end that was dialled; reached: by its addresses, the end that dialled a connection and its number, of so many;
%% other: the end at the other side; on: the connection of an end (that with a stranger is outside), and the addresses of its socket; said:
%% on an end, and not taken yet at the other side. strangers: how many connections are outside. happened, closed: the lines of the script and
%% of what it prints, the last first.
-record(world, {nodes = #{}, lives = #{}, connections = #{}, dialled = #{}, reached = #{}, number = 0, strangers = 0, other = #{}, on = #{},
                said = #{}, happened = [], closed = []}).

%% {holds, Connections, Strangers, Happenings} or {refused, Why}. The script, what it has to print and what it prints are kept beside the
%% logs.
audit(Recordings, Shown) ->
    try
        World = #world{happened = Happened} = world_of(Recordings),
        ok = file:write_file(log("script"), script(World)),
        ok = file:write_file(log("awaited"), printed(World, Shown)),
        _ = os:cmd("timeout 120 " ++ os:getenv("PROGRAM") ++ " enact <" ++ log("script") ++ " >" ++ log("enacted") ++ " 2>&1"),
        [] = apart(lines_of("enacted"), lines_of("awaited")),
        [] = sockets_apart(World, Shown),
        {holds, World#world.number, World#world.strangers, length(Happened)}
    catch error:Why:Stack -> {refused, {Why, [Place || {?MODULE, _, _, Place} <- Stack]}}
    end.

world_of(Recordings) -> lists:foldl(fun line/2, #world{}, in_order(Recordings)).

lines_of(Name) ->
    {ok, Text} = file:read_file(log(Name)),
    binary:split(Text, <<"\n">>, [global]).

%% The first line that differs.
apart([Line | Enacted], [Line | Awaited]) -> apart(Enacted, Awaited);
apart([], []) -> [];
apart(Enacted, Awaited) -> [lists:sublist(Enacted, 1), lists:sublist(Awaited, 1)].

log(Name) -> filename:join(os:getenv("LOGS"), Name).

%% All lines, in the order of the clock that the emulators share.
in_order(Recordings) ->
    lists:keysort(1, [{Time, Node, Line} || {Name, Lines} <- Recordings, {Time, Node, Line} <- of_node(node_number(Name), Lines, 0)]).

%% Somebody may connect before an emulator has made its node, with its first call: it begins with the last call of the one before it.
of_node(_, [], _) -> [];
of_node(Node, [{_, _, new, _, _} = Line | Lines], Last) -> [{Last, Node, Line} | of_node(Node, Lines, Last)];
of_node(Node, [{Time, _, connection, _, _} = Line | Lines], Last) -> [{Time, Node, Line} | of_node(Node, Lines, Last)];
of_node(Node, [{Time, _, _, _, _} = Line | Lines], _) -> [{Time, Node, Line} | of_node(Node, Lines, Time)].

node_number(Name) -> length(lists:takewhile(fun(Other) -> Other =/= Name end, ?NAMES)).

%% What a line of a recording is in the script. A call that was refused has changed nothing, and is no line there.
line({_, Node, {_, Pid, connection, Addresses, ok}}, #world{connections = Connections} = W) ->
    W#world{connections = Connections#{{Node, Pid} => Addresses}};
line({_, Node, {_, _, new, [Name, Cookie, Flags, Required, Creation, _], ok}}, W) ->
    begins(Node, Creation, Cookie, {Name, Flags, Required}, W);
line({_, _, {_, _, drop, [], ok}}, W) -> W;
line({_, Node, {_, _, dial, [Peer], {step, Id, _, _, _, _} = Step}}, #world{dialled = Dialled} = W0) ->
    W = happen("dial ~b ~s new", [Node, Peer], W0),
    step(Node, Step, W#world{dialled = Dialled#{own_end(Node, Id, W) => Peer}});
line({_, Node, {_, Pid, opened, [Id], {step, Id, _, _, _, _} = Step}}, W) ->
    step(Node, Step, reach(Node, Id, Pid, W));
line({_, Node, {_, _, arrive, [_, Body, Fresh, Pid], {arrived, Id, Step}}}, W) -> frame(Node, Body, Fresh, Step, accept(Node, Id, Pid, W));
line({_, Node, {_, _, Call, [Id, Body, Fresh | _], {step, Id, _, _, _, _} = Step}}, W)
  when Call =:= early_body; Call =:= take_body ->
    frame(Node, Body, Fresh, Step, W);
line({_, Node, {_, _, gone, [Id], {step, Id, _, {Id, Why}, _, _} = Step}}, W) ->
    step(Node, Step, happen("lose ~b ~b ~s", [Node, Id, Why], is_up(Node, Id, W)));
line({_, Node, {_, _, Call, _, {step, Id, _, {Id, Why}, _, _} = Step}}, W) when Call =:= lost; Call =:= give_up ->
    step(Node, Step, happen("lose ~b ~b ~s", [Node, Id, Why], W));
line({_, Node, {_, _, cookie, [Peer, Cookie], ok}}, W) -> happen("cookie ~b ~s ~s", [Node, Peer, Cookie], W);
line({_, Node, {_, _, no_cookie, [Peer], ok}}, W) -> happen("no_cookie ~b ~s", [Node, Peer], W);
line({_, Node, {_, _, usual_cookie, [Cookie], ok}}, W) -> happen("usual_cookie ~b ~s", [Node, Cookie], W);
line({_, _, {_, _, _, _, Answer}} = Line, W) ->
    is_refusal(Answer) orelse error({no_line_of_a_script, Line}),
    W.

is_refusal({error, Code}) -> lists:member(Code, ['PeerInUse']);
is_refusal({error, Code, none}) -> lists:member(Code, ['Busy', 'Gone', 'ShownEnd', 'Spent', 'NotANode']);
is_refusal({ready, _}) -> true;
is_refusal({held, _}) -> true;
is_refusal(Answer) -> lists:member(Answer, [changed, none]).

happen(Format, Arguments, #world{happened = Lines} = W) -> W#world{happened = [io_lib:format(Format ++ "~n", Arguments) | Lines]}.

own_end(Node, Id, #world{lives = Lives}) -> {Node, map_get(Node, Lives), Id}.

begins(Node, Creation, Cookie, Setup, #world{nodes = Nodes, lives = Lives} = W) when not is_map_key(Node, Nodes) ->
    happen("begin ~b ~b", [Node, Creation], W#world{nodes = Nodes#{Node => {Setup, Cookie}}, lives = Lives#{Node => 1}});
begins(Node, Creation, Cookie, Setup, #world{nodes = Nodes, lives = Lives} = W0) ->
    W = happen("halt ~b", [Node], W0#world{lives = Lives#{Node := map_get(Node, Lives) + 1}}),
    case {map_get(Node, Nodes), Setup} of
        {{Setup, Cookie}, _} -> happen("begin ~b ~b", [Node, Creation], W);
        {{Setup, _}, _} -> happen("usual_cookie ~b ~s", [Node, Cookie], happen("begin ~b ~b", [Node, Creation], W));
        {_, {Name, Flags, Required}} ->
            happen("begin_as ~b ~s ~s ~.16b ~b require ~.16b", [Node, Name, Cookie, Flags, Creation, Required], W)
    end.

%% A connection to a peer that never takes its first frame leads to that node, whatever became of it; one to any other name is outside.
reach(Node, Id, Pid, #world{connections = Connections, dialled = Dialled, reached = Reached, number = Number, on = On} = W) ->
    End = own_end(Node, Id, W),
    Addresses = map_get({Node, Pid}, Connections),
    case node_number(hd(string:split(binary_to_list(map_get(End, Dialled)), "@"))) of
        Target when Target < length(?NAMES) ->
            happen("opened ~b ~b", [Node, Id],
                   happen("reach ~b ~b ~b", [Node, Id, Target],
                          W#world{reached = Reached#{Addresses => {End, Number}}, number = Number + 1, on = On#{End => {Number, Addresses}}}));
        _ -> happen("outside_opened ~b ~b", [Node, Id], is_outside(End, Addresses, W))
    end.

%% It comes from the end of the four that reached it with its addresses, or from outside.
accept(Node, Id, Pid, #world{connections = Connections, reached = Reached, other = Other, on = On} = W) ->
    [Own, Remote] = Addresses = map_get({Node, Pid}, Connections),
    End = own_end(Node, Id, W),
    case maps:take([Remote, Own], Reached) of
        {{Dial, Number}, Left} ->
            happen("accept ~b", [Number], W#world{reached = Left, other = Other#{End => Dial, Dial => End}, on = On#{End => {Number, Addresses}}});
        error -> happen("outside_incoming ~b", [Node], is_outside(End, Addresses, W))
    end.

is_outside(End, Addresses, #world{on = On, strangers = Strangers} = W) ->
    W#world{on = On#{End => {outside, Addresses}}, strangers = Strangers + 1}.

%% The next frame that was said at the other side, or any if that is outside.
frame(Node, Body, Fresh, {step, Id, _, _, _, _} = Step, #world{other = Other, on = On, said = Said} = W0) ->
    End = own_end(Node, Id, W0),
    case map_get(End, On) of
        {outside, _} -> step(Node, Step, happen("outside_frame ~b ~b ~s ~b", [Node, Id, hex(Body), Fresh], W0));
        _ ->
            Sayer = map_get(End, Other),
            [Body | Left] = map_get(Sayer, Said),
            W = happen("take ~b ~b ~b", [Node, Id, Fresh], happen("deliver ~b ~b ~b", [Node, Id, 2 + byte_size(Body)], W0)),
            step(Node, Step, W#world{said = Said#{Sayer := Left}})
    end.

%% (`-` is no byte)
hex(<<>>) -> "-";
hex(Body) -> [io_lib:format("~2.16.0b", [Byte]) || <<Byte>> <= Body].

step(Node, {step, Id, Bodies, Closed, _, Up}, #world{said = Said, closed = Lines} = W0) ->
    End = own_end(Node, Id, W0),
    Closing = [io_lib:format("closed ~b ~b ~s~n", [Node, Gone, Why]) || {Gone, Why} <- [Closed]],
    W = W0#world{said = Said#{End => maps:get(End, Said, []) ++ Bodies}, closed = Closing ++ Lines},
    case Up of
        none -> W;
        _ -> is_up(Node, Id, W)
    end.

%% A tick is due only on an end that is up, and nobody takes it.
is_up(Node, Id, W) -> happen("tick ~b ~b", [Node, Id], W).

%% ---- the script, and what it has to print

script(#world{nodes = Nodes, happened = Happened}) ->
    [[io_lib:format("node ~s ~s ~.16b 0 require ~.16b~n", [Name, Cookie, Flags, Required])
      || {_, {{Name, Flags, Required}, Cookie}} <- lists:sort(maps:to_list(Nodes))],
     lists:reverse(Happened)].

printed(#world{happened = Happened, closed = Closed} = W, Shown) ->
    Tables = [[io_lib:format("node ~s running ~b~n", [peer(Name), Creation]),
               [io_lib:format("~s up ~b common ~16.16.0b creation ~b~n", [Peer, Id, Common, Theirs]) || {Peer, Id, Common, Theirs, _} <- Rows]]
              || {Name, {Creation, Rows}} <- Shown],
    [lists:reverse(Closed), io_lib:format("applied ~b of ~b~n", [length(Happened), length(Happened)]), Tables, agreements(W, Shown)].

%% All pairs of the four are connected.
agreements(W, Shown) ->
    [begin
         {Number, _} = map_get(own_end(node_number(Name), Id, W), W#world.on),
         io_lib:format("agree ~s ~s conn ~b common ~16.16.0b creations ~b ~b~n", [peer(Name), Peer, Number, Common, Own, Theirs])
     end || {Name, {Own, Rows}} <- Shown, {Peer, Id, Common, Theirs, _} <- Rows, atom_to_binary(peer(Name)) < Peer, is_one_of_them(Peer)].

is_one_of_them(Peer) -> lists:member(Peer, [atom_to_binary(peer(Name)) || Name <- ?NAMES]).

%% The rows of net_kernel whose socket is not the one of their end.
sockets_apart(#world{on = On} = W, Shown) ->
    [{Name, Row} || {Name, {_, Rows}} <- Shown, {_, Id, _, _, {Own, Other}} = Row <- Rows,
                    element(2, map_get(own_end(node_number(Name), Id, W), On)) =/= [Own, Other]].

%% ---- a changed recording

%% A frame of one of the four is taken twice, or not at all, or after the one behind it: any behind which its end takes another one, or is
%% gone. (Whatever a stranger sends may be sent.)
changed(Kind, Recordings) -> changed(Kind, Recordings, world_of(Recordings)).

changed(Kind, Recordings, World) ->
    {Name, Lines} = one_of(Recordings),
    {Before, [Line | Behind]} = lists:split(rand:uniform(length(Lines)) - 1, Lines),
    {Between, Next} = lists:splitwith(fun(Other) -> not is_next(Other, Line) end, Behind),
    case is_frame(Line) andalso is_inside(Name, Before, Line, World) andalso changed(Kind, Line, Between, Next) of
        false -> changed(Kind, Recordings, World);
        Changed -> {lists:keyreplace(Name, 1, Recordings, {Name, Before ++ Changed}), {Name, Line}}
    end.

is_inside(Name, Before, {_, _, _, [Id | _], _}, #world{other = Other}) ->
    is_map_key({node_number(Name), length([new || {_, _, new, _, _} <- Before]), Id}, Other).

changed(_, _, _, []) -> false;
changed(_, _, _, [{_, _, new, _, _} | _]) -> false;
changed(repeated, Line, Between, Next) -> [Line, Line | Between ++ Next];
changed(dropped, _, Between, Next) -> Between ++ Next;
changed(swapped, _, _, [{_, _, gone, _, _} | _]) -> false;
changed(swapped, Line, Between, [Other | Rest]) ->
    [setelement(1, Other, element(1, Line)) | Between] ++ [setelement(1, Line, element(1, Other)) | Rest].

is_frame({_, _, Call, [Id | _], {step, Id, _, _, _, _}}) -> Call =:= early_body orelse Call =:= take_body;
is_frame(_) -> false.

is_next({_, _, new, _, _}, _) -> true;
is_next({_, _, gone, [Id], _}, {_, _, _, [Id | _], _}) -> true;
is_next({_, _, _, [Id | _], _} = Other, {_, _, _, [Id | _], _}) -> is_frame(Other);
is_next(_, _) -> false.
