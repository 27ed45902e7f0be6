%% SPDX-License-Identifier: Apache-2.0
%% Order sweeps. In one node the carrier's processes have a point before and a point after each thing that others see of them: a call
%% of the core, of the library or of a socket, a message, an exit of another. Five plays of a scene find the points that it passes. Then
%% it is played once for each of them and each fault: whoever comes to the point stops for a while, or is killed. After each play the
%% nodes come to rest, connect by their first attempt, and have neither an end nor a process nor a port more than before.
%%
%% Where processes run side by side a play may not pass the point, and after three such plays that fault counts as not met.
%%
%% The core itself is stopped and never killed, and so is net_kernel: with them the distribution ends (killed_core).
-module(order_sweeps).
-export([main/0, main/1, some/1]).
-export([call/4, watch/0, arm/1, disarm/0, points/0, has_met/0, sizes/0, open_ends/1]).

-define(QUIET, ["-connect_all", "false", "-kernel", "prevent_overlapping_partitions", "false",
                "-kernel", "dist_auto_connect", "never"]).
-define(FLAGS, 16#d07df7fbd).   % those that OTP 25 announces, DFLAG_PUBLISHED among them
-define(COOKIE, "test").
-define(ORDERED, [distnode_core, distnode_nif, inet, inet_tcp]).
-define(SWEPT, [distnode_accept, distnode_setup, distnode_shake, distnode_script, distnode_core]).

%% How long a process stops, in milliseconds: others run ahead of it; or their timers end, too. Those are of 1 second then.
-define(SHORT, 30).
-define(LONG, 1500).

%% So many ends has a node that is to begin anew.
-define(MOST, 16).

%% The swept node, s, has a name between those of p and t: who wins a crossing is decided by the names. ours: those with this carrier.
-record(nodes, {swept, port, p, t, ours}).
-record(scene, {prepare = fun(_) -> none end, play, arguments = [], peers = ours}).

main() -> main([]).
main(Words) ->
    cases:main(fun(Mapper) -> [{Name, fun() -> sweep(Scene, Mapper, [{stop, ?SHORT}, kill, {stop, ?LONG}], [before, behind]) end}
                               || {Name, Scene} <- scenes()] end, Words).

%% What takes seconds, beside the cases.
some(Mapper) ->
    {"give", Scene} = lists:keyfind("give", 1, scenes()),
    sweep(Scene, Mapper, [kill], [before]).

scenes() ->
    Between = [{"accept", #scene{play = fun(_, #nodes{swept = S, p = P}) -> cases:connect(P, S) end}},
               {"dial", #scene{play = fun(_, #nodes{swept = S, p = P}) -> cases:connect(S, P) end}},
               {"crossing_lesser", #scene{play = fun(_, #nodes{p = P} = Nodes) -> crossing(P, Nodes) end}},
               {"crossing_greater", #scene{play = fun(_, #nodes{t = T} = Nodes) -> crossing(T, Nodes) end}}],
    Between ++ [{Name ++ "_ordinary", Scene#scene{peers = otp}} || {Name, Scene} <- Between] ++
        [{"give", #scene{play = fun(_, Nodes) -> wanted_meanwhile('give@127.0.0.1', Nodes) end}},
         {"take", #scene{play = fun(_, Nodes) -> wanted_meanwhile('take@127.0.0.1', Nodes) end}},
         {"replace", #scene{prepare = fun(#nodes{port = Port}) -> comes('peer@127.0.0.1', Port) end, play = fun replaced/2}},
         {"renew_by_accept", renewal(fun(#nodes{swept = S, t = T}) -> {T, S} end)},
         {"renew_by_dial", renewal(fun(#nodes{swept = S, t = T}) -> {S, T} end)}].

renewal(Who) ->
    #scene{prepare = fun nearly_spent/1, play = fun(Held, Nodes) -> renewed(Held, Who(Nodes), Nodes) end,
           arguments = ["-kernel", "distnode_most_ends", integer_to_list(?MOST)]}.

%% ---- the scenes: each answers whether the peers came up

crossing(Peer, #nodes{swept = S}) ->
    Moment = erlang:system_time(nanosecond) + 10000000,
    Self = self(),
    Names = [test_nodes:name(X) || X <- [Peer, S]],
    Pids = [spawn_link(fun() -> Self ! {self(), test_nodes:call(X, test_agent, connect_at, [Y, Moment])} end)
            || {X, Y} <- lists:zip([S, Peer], Names)],
    Answers = [receive {Pid, Answer} -> Answer end || Pid <- Pids],
    lists:all(fun(Answer) -> Answer end, Answers).

%% A peer has said its name, and before it shows the cookie it is wanted, too: net_kernel has a setup of its own when it is asked. That
%% gets the peer's connection where its name is the lesser one, and is ended where it is the greater one.
wanted_meanwhile(Peer, #nodes{swept = S, port = Port}) ->
    Name = atom_to_binary(Peer),
    by_hand(Port, fun(Socket) ->
                          ok = other_side:say_name(Socket, ?FLAGS, Name),
                          <<"ok">> = other_side:status(Socket),
                          Challenge = other_side:challenge(Socket),
                          _ = test_nodes:call(S, erlang, spawn, [net_kernel, connect_node, [Peer]]),
                          _ = test_nodes:wait(fun() -> is_wanted(Name, S) orelse is_killed(S) end, 2 * ?LONG),
                          ok = other_side:reply(Socket, ?COOKIE, Challenge),
                          ok = other_side:ack(Socket, ?COOKIE),
                          is_up(Peer, S)
                  end).

is_wanted(Name, S) -> lists:keymember(Name, 1, maps:get(wants, test_nodes:call(S, distnode_core, table, []))).
is_killed(S) -> test_nodes:call(S, ?MODULE, has_met, []) =:= {true, kill}.
is_up(Peer, S) -> true =:= test_nodes:wait(fun() -> lists:member(Peer, test_nodes:call(S, erlang, nodes, [])) end, 5000).

%% A peer whose connection is up comes again: the old one is closed, and the new one is up.
replaced(Old, #nodes{swept = S, port = Port}) ->
    IsUp = by_hand(Port, fun(Socket) ->
                                 shakes('peer@127.0.0.1', Socket),
                                 is_closed(Old) andalso is_up('peer@127.0.0.1', S)
                         end),
    gen_tcp:close(Old),
    IsUp.

%% A node that has given out most of its numbers, and has two peers up.
nearly_spent(#nodes{swept = S, p = P, t = T, port = Port} = Nodes) ->
    true = begun_anew(spent(S), {T, S}, Nodes, 2 * ?MOST),
    true = cases:connect(P, S),
    Held = comes('peer@127.0.0.1', Port),
    use_up(T, S),
    Held.

use_up(T, S) ->
    true = cases:connect(T, S),
    Id = test_nodes:call(S, test_agent, up_end, [test_nodes:name(T)]),
    cases:apart(T, S),
    [use_up(T, S) || Id < ?MOST - 1].

renewed(Held, Who, #nodes{swept = S} = Nodes) ->
    IsRenewed = begun_anew(spent(S), Who, Nodes, 6),
    IsClosed = is_closed(Held),
    gen_tcp:close(Held),
    IsRenewed andalso IsClosed.

%% A node that has begun anew doesn't take the connection that comes next.
begun_anew(_, _, _, 0) -> false;
begun_anew(Before, {X, Y}, #nodes{swept = S, t = T} = Nodes, Left) ->
    _ = attempted(X, Y),
    case spent(S) > Before of
        true -> attempted(T, S);
        false -> begun_anew(Before, {X, Y}, Nodes, Left - 1)
    end.

attempted(X, Y) ->
    _ = cases:connect(X, Y),
    cases:apart(X, Y),
    true.

spent(S) -> maps:get(spent, test_nodes:call(S, distnode_core, counts, []), 0).

%% ---- a peer by hand

comes(Peer, Port) ->
    Socket = other_side:connect(Port),
    shakes(Peer, Socket),
    Socket.

shakes(Peer, Socket) ->
    ok = other_side:say_name(Socket, ?FLAGS, atom_to_binary(Peer)),
    case other_side:status(Socket) of
        <<"alive">> -> ok = gen_tcp:send(Socket, <<"strue">>);
        <<"ok">> -> ok
    end,
    ok = other_side:reply(Socket, ?COOKIE, other_side:challenge(Socket)),
    ok = other_side:ack(Socket, ?COOKIE).

%% False where the connection was closed before its handshake was over.
by_hand(Port, Body) ->
    Socket = other_side:connect(Port),
    try Body(Socket)
    catch error:{badmatch, {error, Why}} when Why =:= closed; Why =:= timeout; Why =:= econnreset -> false
    after gen_tcp:close(Socket)
    end.

%% What the node had to say before it closed the connection is not looked at.
is_closed(Socket) ->
    case gen_tcp:recv(Socket, 0, 5000) of
        {ok, _} -> is_closed(Socket);
        {error, Why} -> Why =/= timeout
    end.

%% ---- a sweep

sweep(#scene{arguments = Arguments, peers = Kind} = Scene, Mapper, Faults, Places) ->
    cases:with([{"s", folder(), Arguments ++ ?QUIET}, {"p", Kind, ?QUIET}, {"t", Kind, ?QUIET}],
               fun([S, P, T]) ->
                       Ours = [S | [Node || Node <- [P, T], Kind =:= ours]],
                       Nodes = #nodes{swept = S, port = other_side:port_of("s", Mapper), p = P, t = T, ours = Ours},
                       ok = test_nodes:call(S, ?MODULE, watch, []),
                       _ = [begin {true, false} = played(none, Scene, Nodes), connects_at_once(Nodes) end || _ <- [1, 2]],
                       Sizes = test_nodes:call(S, ?MODULE, sizes, []),
                       Points = lists:umerge([points_of(Scene, Nodes) || _ <- lists:seq(1, 5)]),
                       Met = [one(Point, Fault, Scene, Sizes, Nodes)
                              || Fault <- Faults, {{{_, Place}, _}, _} = Point <- Points, lists:member(Place, Places), can_have(Fault, Point)],
                       {Yes, No} = lists:partition(fun(IsMet) -> IsMet end, Met),
                       {said, "~b points, ~b faults met, ~b not", [length(L) || L <- [Points, Yes, No]]}
               end).

points_of(Scene, #nodes{swept = S} = Nodes) ->
    {true, false} = played(none, Scene, Nodes),
    Points = test_nodes:call(S, ?MODULE, points, []),
    connects_at_once(Nodes),
    Points.

one(Point, Fault, Scene, Sizes, Nodes) -> one(Point, Fault, Scene, Sizes, Nodes, 3).

one(_, _, _, _, _, 0) -> false;
one(Point, Fault, Scene, Sizes, Nodes, Left) ->
    try
        [setup_time(1, Nodes) || Fault =:= {stop, ?LONG}],
        {IsUp, IsMet} = played({Point, Fault}, Scene, Nodes),
        true = IsUp orelse Fault =/= {stop, ?SHORT},
        [comes_meanwhile(Nodes) || Fault =:= {stop, ?LONG}],
        setup_time(7, Nodes),
        connects_at_once(Nodes),
        true = test_nodes:wait(fun() -> is_as_before(Sizes, Nodes) end, 5000),
        IsMet =/= false orelse one(Point, Fault, Scene, Sizes, Nodes, Left - 1)
    catch
        Class:Reason:Stack -> erlang:raise(Class, {Point, Fault, Reason}, Stack)
    end.

%% For attempts that begin from now on.
setup_time(Seconds, #nodes{swept = S, p = P, t = T}) ->
    [ok = test_nodes:call(X, application, set_env, [kernel, net_setuptime, Seconds]) || X <- [S, P, T]].

%% Who stopped may still stand, and a peer comes all the same.
comes_meanwhile(#nodes{swept = S, p = P}) -> true = test_nodes:wait(fun() -> cases:connect(P, S) end, 5000).

can_have(kill, {{_, core}, _}) -> false;
can_have(_, _) -> true.

played(Fault, #scene{prepare = Prepare, play = Play}, #nodes{swept = S} = Nodes) ->
    Prepared = Prepare(Nodes),
    ok = test_nodes:call(S, ?MODULE, arm, [Fault]),
    IsUp = Play(Prepared, Nodes),
    IsMet = test_nodes:call(S, ?MODULE, has_met, []),
    ok = test_nodes:call(S, ?MODULE, disarm, []),
    {IsUp, IsMet}.

rested(#nodes{swept = S, p = P, t = T, ours = Ours}) ->
    [cases:apart(S, X) || X <- [P, T]],
    true = test_nodes:wait(fun() -> test_nodes:call(S, erlang, nodes, []) =:= [] end, 10000),
    cases:agreed(Ours).

%% After a rest all connect, each by its first attempt, and no end is open but theirs.
connects_at_once(#nodes{swept = S, p = P, t = T, port = Port, ours = Ours} = Nodes) ->
    rested(Nodes),
    [begin
         {true, _, _} = {cases:connect(X, Y), test_nodes:name(X), test_nodes:name(Y)},
         cases:both_up(X, Y),
         cases:agreed(Ours)
     end || {X, Y} <- [{P, S}, {S, T}]],
    Socket = comes('peer@127.0.0.1', Port),
    Last = test_nodes:call(S, test_agent, up_end, ['peer@127.0.0.1']),
    gen_tcp:close(Socket),
    rested(Nodes),
    [] = test_nodes:call(S, ?MODULE, open_ends, [Last]).

is_as_before(Sizes, #nodes{swept = S}) ->
    case test_nodes:call(S, ?MODULE, sizes, []) of
        Sizes -> true;
        Other -> {Other, Sizes}
    end.

%% ---- the swept node's code

folder() ->
    Folder = filename:join(os:getenv("LOGS"), "swept"),
    Ebin = filename:join(Folder, "ebin"),
    [ok = cases:copy(filename:join([os:getenv("EBIN"), "..", Part]), filename:join(Folder, Part)) || Part <- ["ebin", "priv"]],
    [ok = file:write_file(filename:join(Ebin, atom_to_list(Module) ++ ".beam"), with_points(Module)) || Module <- ?SWEPT],
    Ebin.

with_points(Module) ->
    {ok, Forms} = epp:parse_file(filename:join([os:getenv("EBIN"), "..", "src", atom_to_list(Module) ++ ".erl"]), []),
    {ok, Module, Beam} = compile:forms(points_in(Forms, Module), [debug_info]),
    Beam.

points_in({call, At, {remote, _, {atom, _, M}, _} = Called, Arguments}, In) ->
    case lists:member(M, ?ORDERED) of
        true -> point_at(At, In, Called, points_in(Arguments, In));
        false -> {call, At, Called, points_in(Arguments, In)}
    end;
points_in({call, At, {remote, _, {var, _, _}, _} = Called, Arguments}, In) -> point_at(At, In, Called, points_in(Arguments, In));
points_in({call, At, {atom, _, exit}, [_, _] = Arguments}, In) -> point_at(At, In, erlang(At, exit), Arguments);
points_in({op, At, '!', To, What}, In) -> point_at(At, In, erlang(At, send), points_in([To, What], In));
points_in(Form, In) when is_tuple(Form) -> list_to_tuple(points_in(tuple_to_list(Form), In));
points_in([Form | Forms], In) -> [points_in(Form, In) | points_in(Forms, In)];
points_in(Form, _) -> Form.

erlang(At, Function) -> {remote, At, {atom, At, erlang}, {atom, At, Function}}.

point_at(At, In, {remote, _, M, {atom, _, F} = Function}, Arguments) ->
    Given = lists:foldr(fun(Argument, List) -> {cons, At, Argument, List} end, {nil, At}, Arguments),
    {call, At, {remote, At, {atom, At, ?MODULE}, {atom, At, call}}, [erl_parse:abstract({In, erl_anno:line(At), F}), M, Function, Given]}.

%% ---- in the swept node

-define(TABLE, ?MODULE).

call(Site, M, F, Arguments) ->
    pass(Site, before),
    Answer = apply(M, F, Arguments),
    pass(Site, behind),
    Answer.

%% How often it was passed since the fault was armed belongs to a point.
pass(Site, Place) ->
    case ets:whereis(?TABLE) of
        undefined -> ok;
        _ ->
            Who = case [Name || Name <- [distnode_core, net_kernel], whereis(Name) =:= self()] of [] -> other; [_] -> core end,
            Point = {{Site, Place}, Who},
            N = ets:update_counter(?TABLE, {seen, Point}, 1, {{seen, Point}, 0}),
            [meet(Fault) || {armed, {At, Fault}} <- ets:lookup(?TABLE, armed), At =:= {Point, N}]
    end.

meet(Fault) ->
    true = ets:insert(?TABLE, {met, Fault}),
    case Fault of
        kill -> exit(self(), kill), receive after infinity -> ok end;
        {stop, Milliseconds} -> receive after Milliseconds -> ok end
    end.

watch() ->
    Self = self(),
    Pid = spawn(fun() ->
                        ?TABLE = ets:new(?TABLE, [named_table, public]),
                        Self ! {self(), watching},
                        receive after infinity -> ok end
                end),
    receive {Pid, watching} -> ok end.

%% {{Point, N}, Fault}, or none.
arm(Fault) ->
    true = ets:delete_all_objects(?TABLE),
    _ = [ets:insert(?TABLE, {armed, Fault}) || Fault =/= none],
    ok.

points() -> lists:sort([{Point, N} || {{seen, Point}, Most} <- ets:tab2list(?TABLE), N <- lists:seq(1, Most)]).

disarm() ->
    true = ets:delete(?TABLE, armed),
    ok.

has_met() -> case ets:lookup(?TABLE, met) of [{met, Fault}] -> {true, Fault}; [] -> false end.

%% Processes, ports, and how many processes the core watches, sockets it watches, frames are held and cookies lent: fields 5, 6, 7 and 9
%% of its state.
sizes() ->
    St = sys:get_state(distnode_core),
    {length(processes()), length(erlang:ports()), [size_of(element(At, St)) || At <- [5, 6, 7, 9]]}.

size_of(List) when is_list(List) -> length(List);
size_of(Map) -> map_size(Map).

%% Which of the ends up to this one are open.
open_ends(Last) ->
    [{node, Node, _, _, _}] = ets:lookup(distnode_core, node),
    [Id || Id <- lists:seq(1, Last), distnode_nif:cause(Node, Id) =:= none].
