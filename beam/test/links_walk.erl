%% SPDX-License-Identifier: Apache-2.0
%% Random walks of distnode_links among processes, sockets, a node and a net_kernel that are all models: processes die at any
%% moment, and what they cast or their ends arrive late. Each process makes the steps of its own end at the node itself. The
%% machine learns of them in their order, by the core's mail, and later than they were made, while the core makes steps of its own.
%% After each step it holds that
%%
%%   - the machine's ends are the node's open ends, but for what is in the mail;               (one core's table)
%%   - an end's frames come from the one process that holds its socket, which is its owner;    (premises 1, 3)
%%   - an end comes up once, by the step of its owner;                                         (premise 2)
%%   - a process that has brought the emulator up has an end that is up in the node, and an end that came up is up until its socket
%%     is gone;                                                                                (premise 5)
%%   - whoever holds the socket of a closed end has a message that says so, or one is on its way, or it learns it where it
%%     asks. (premise 6)
%%
%% And at the end of each walk, when no new process comes, every setup has got its peer or has ended, and each open end is up. Premise 4,
%% the flags, and 7, one core for each incarnation, are no matter of this machine.
-module(links_walk).
-export([run/0, run/2]).

%% rows: which process net_kernel counts as a peer's. mail: what was reported and asked, the first one first, as {Pid, Events}. casts:
%% what each process has cast, or its end, and what has not arrived. node: each open end, as {Phase, Peer}. overs: the end with its peer that
%% was up when a setup was started.
-record(w, {links = distnode_links:new(), node = #{}, procs = #{}, inbox = #{}, socks = #{}, rows = #{}, mail = [], casts = #{},
            next = 1, admitted = #{}, overs = #{}}).

-define(PEERS, [<<"lesser">>, <<"greater">>]).

run() ->
    Walks = 3000,
    Ups = lists:sum([run(Seed, 250) || Seed <- lists:seq(1, Walks)]),
    {said, "~b walks, ~b ends came up", [Walks, Ups]}.

run(Seed, Steps) ->
    _ = rand:seed(exsss, Seed),
    try rested(10000, walk(Steps, #w{}))
    catch Class:Reason:Stack -> erlang:raise(Class, {walk, Seed, Reason}, Stack)
    end.

walk(0, W) -> W;
walk(Steps, W) -> walk(Steps - 1, checked(step(rand:uniform(20), W))).

step(1, W) -> start_setup(one_of(?PEERS), W);
step(2, W) -> start_accept(W);
step(3, W) -> case any(maps:keys(W#w.procs)) of none -> W; {ok, Pid} -> crash(Pid, W) end;
step(4, W) -> case any(maps:keys(W#w.rows)) of none -> W; {ok, Peer} -> forget_row(Peer, W) end;
step(5, W) -> case any(distnode_links:ends(W#w.links)) of none -> W; {ok, Id} -> misuse(Id, W) end;
step(N, W) when N < 11 -> deliver_any(W);
step(_, W) -> case any(maps:keys(W#w.procs)) of none -> W; {ok, Pid} -> act(Pid, W) end.

%% Nobody comes and nobody is killed any more.
rested(0, W) -> error({not_at_rest, W});
rested(Left, W) ->
    case {[Pid || {Pid, P} <- maps:to_list(W#w.procs), not is_up(P)], W#w.mail =:= [] andalso maps:size(W#w.casts) =:= 0} of
        {[], true} ->
            [] = distnode_links:wanted(W#w.links),
            [] = [Id || {Id, {Phase, _}} <- maps:to_list(W#w.node), Phase =/= up],
            [up = distnode_links:stage(Id, W#w.links) || Id <- distnode_links:ends(W#w.links)],
            maps:size(W#w.admitted);
        {[], false} -> rested(Left - 1, checked(deliver_any(W)));
        {Busy, _} -> rested(Left - 1, checked(deliver_any(act(one_of(Busy), W))))
    end.

is_up({setup, _, {up, _}}) -> true;
is_up({accept, _, {up, _}}) -> true;
is_up(_) -> false.

%% ---- what holds

checked(#w{links = Links, node = Node, socks = Socks, procs = Procs, rows = Rows} = W) ->
    true = distnode_links:invariant(Links),
    Ends = distnode_links:ends(Links),
    [] = ((maps:keys(Node) -- Ends) -- (mailed(accepted, W) ++ mailed(came_up, W))) -- [Id || {socket, Id} <- maps:keys(W#w.casts)],
    [] = (Ends -- maps:keys(Node)) -- mailed(closed, W),
    [is_held(Id, Holder, W) || {Id, Holder} <- maps:to_list(Socks)],
    [{up, Peer} = maps:get(Id, Node) || {Peer, Pid} <- maps:to_list(Rows), {true, Id} <- [emulator_up(maps:get(Pid, Procs))]],
    W.

mailed(Kind, #w{mail = Mail}) -> [element(2, Event) || {_, Events} <- Mail, Event <- Events, element(1, Event) =:= Kind].

is_held(Id, Holder, #w{links = Links, node = Node} = W) when is_map_key(Id, Node) ->
    case distnode_links:owner(Id, Links) of
        none -> true = lists:member(Id, mailed(accepted, W) ++ mailed(came_up, W));
        Owner -> true = Owner =:= Holder orelse not is_alive(Owner, W)
    end;
is_held(Id, Holder, W) -> true = hears(Id, Holder, W).

%% One that brings the emulator up, or has, reads no message: it is killed.
hears(Id, Pid, #w{procs = Procs, inbox = Inbox} = W) ->
    lists:member(Id, mailed(closed, W) ++ mailed(accepted, W)) orelse
        case maps:get(Pid, Procs) of
            {setup, _, {bring, Id}} -> true;
            {accept, Id, {Stage, _}} when Stage =:= ready; Stage =:= refusing; Stage =:= asked -> true;
            {_, _, {Stage, _}} when Stage =:= admitted; Stage =:= up; Stage =:= ending -> false;
            _ -> lists:keymember(Id, 2, maps:get(Pid, Inbox, []))
        end.

emulator_up({setup, _, {Stage, Id}}) when Stage =:= admitted; Stage =:= up -> {true, Id};
emulator_up({accept, Id, {Stage, _}}) when Stage =:= admitted; Stage =:= up -> {true, Id};
emulator_up(_) -> false.

%% ---- processes

start_setup(Peer, #w{rows = Rows} = W) when is_map_key(Peer, Rows) -> W;
start_setup(Peer, W0) ->
    {Pid, W} = spawned({setup, Peer, {await, none}}, W0),
    want(Pid, Peer, W#w{rows = (W#w.rows)#{Peer => Pid}, overs = (W#w.overs)#{Pid => up_end(Peer, W)}}).

%% A connection came, and its first frame: a step of its process, which is reported, or one of the core, which is asked for it.
start_accept(W0) ->
    {Room, W1} = make_room(W0),
    {Id, W2} = fresh(W1),
    {Pid, W3} = spawned({accept, Id, shaking}, W2),
    {Events, W} = arrive(Id, Pid, one_of(?PEERS), W3#w{socks = (W3#w.socks)#{Id => Pid}}),
    Later = case rand:uniform(3) of
                1 -> events(Pid, Events ++ Room, W);
                _ -> mail(Pid, Events ++ Room, W)
            end,
    case Later of
        #w{node = #{Id := _}} -> Later;
        #w{} -> die(Pid, Later)
    end.

arrive(Id, Pid, Peer, W) ->
    case {rand:uniform(10), pending(Peer, W), Peer} of
        {1, _, _} -> {[{accepted, Id, Pid, none}, {closed, Id, 'Why', Pid}], W};
        {_, {out, _}, <<"lesser">>} -> {[{accepted, Id, Pid, none}, {closed, Id, 'Why', Pid}], W};
        {_, none, _} -> {come(Id, Pid, Peer, []), set(Id, {in, Peer}, W)};
        {_, {in, Other}, _} -> {come(Id, Pid, Peer, [{closed, Other, 'Why', Pid}]), set(Id, {in, Peer}, close(Other, W))};
        {_, {out, Other}, <<"greater">>} -> {come(Id, Pid, Peer, []), set(Id, {in, Peer}, set(Other, {doomed, Peer}, W))}
    end.

come(Id, Pid, Peer, Closed) -> [{accepted, Id, Pid, Peer}] ++ Closed ++ [{check, Id}].

act(Pid, #w{procs = Procs} = W) when not is_map_key(Pid, Procs) -> W;
act(Pid, #w{procs = Procs} = W) -> act(maps:get(Pid, Procs), Pid, W).

act({setup, Peer, {await, {shaking, Id} = Dial}}, Pid, W) ->
    case pop(Pid, W) of
        {none, Later} -> own_frame(maps:get(Id, W#w.node, none), Peer, Id, Pid, Later);
        Popped -> await(Popped, Peer, Dial, Pid)
    end;
act({setup, Peer, {await, Dial}}, Pid, W) -> await(pop(Pid, W), Peer, Dial, Pid);
act({setup, Peer, {bring, Id}}, Pid, #w{node = Node} = W) ->
    case Node of
        #{Id := {in, Peer}} -> come_up({setup, Peer, {admitted, Id}}, Peer, Id, Pid, W);
        #{} -> again(Pid, Peer, mail(Pid, [{given_up, Id, Pid}], unsocket(Id, W)))
    end;
act({setup, Peer, {admitted, Id}}, Pid, W) -> put_proc(Pid, {setup, Peer, {up, Id}}, W);
act({dialler, Setup, Id}, Pid, #w{node = Node} = W) ->
    case {rand:uniform(6), maps:get(Id, Node, none)} of
        {1, _} -> die(Pid, send(Setup, {over, Pid, failed}, W));
        {_, {out, _}} -> die(Pid, send(Setup, {over, Pid, connected}, W));
        {_, {doomed, _}} -> die(Pid, mail(Pid, [{closed, Id, 'Why', Pid}], close(Id, W)));
        {_, none} -> die(Pid, W)
    end;
act({accept, Id, shaking}, Pid, W) ->
    case pop(Pid, W) of
        {{closed, Id, _}, Later} -> die(Pid, Later);
        {none, Later} -> frame(maps:get(Id, W#w.node, none), Id, Pid, Later)
    end;
act({accept, Id, {ready, Peer}}, Pid, W) ->
    case {rand:uniform(2), pop(Pid, W)} of
        {1, {{closed, Id, _}, Later}} -> die(Pid, Later);
        _ -> ask_kernel(maps:get(Peer, W#w.rows, none), Peer, Id, Pid, W)
    end;
act({accept, Id, {asked, Peer}}, Pid, #w{node = Node} = W) ->
    case Node of
        #{Id := {in, Peer}} -> come_up({accept, Id, {admitted, Peer}}, Peer, Id, Pid, W);
        #{} -> die(Pid, mail(Pid, [{given_up, Id, Pid}], W))
    end;
act({_, _, {ending, _}}, Pid, W) -> die(Pid, W);
act({accept, Id, {admitted, Peer}}, Pid, W) -> put_proc(Pid, {accept, Id, {up, Peer}}, W);
act(_, _, W) -> W.

%% A process that isn't the owner, and an owner before its time, get nothing.
misuse(Id, #w{links = Links} = W) ->
    Other = {pid, 0},
    Owner = distnode_links:owner(Id, Links),
    [{gone, [], Links} = distnode_links:event(Event, Links) || Event <- [{vetoed, Id, Other}, {given_up, Id, Other}]],
    {gone, [{kill, Other}], Links} = distnode_links:event({came_up, Id, Other}, Links),
    {ok, [], Links} = distnode_links:event({handed, Id, Other}, Links),
    [{gone, [], Links} = distnode_links:event({vetoed, Id, Owner}, Links) || distnode_links:peer(Id, Links) =:= none],
    W.

%% As in distnode_setup.
await({none, W}, _, _, _) -> W;
await({{dial, Id}, W0}, Peer, Dial, Pid) ->
    {Dialler, W} = spawned({dialler, Pid, Id}, end_dial(Dial, Pid, W0)),
    put_proc(Pid, {setup, Peer, {await, {connecting, Id, Dialler}}}, W);
await({{ready, Id, _}, W}, Peer, Dial, Pid) -> put_proc(Pid, {setup, Peer, {bring, Id}}, end_dial(Dial, Pid, W));
await({again, W}, Peer, Dial, Pid) -> again(Pid, Peer, end_dial(Dial, Pid, W));
await({{closed, Id, _}, W}, Peer, Dial, Pid) when element(2, Dial) =:= Id -> again(Pid, Peer, end_dial(Dial, Pid, W));
await({{closed, _, _}, W}, Peer, none, Pid) -> want(Pid, Peer, W);
await({{closed, _, _}, W}, _, _, _) -> W;
await({{over, Dialler, failed}, W}, _, {connecting, _, Dialler}, Pid) -> die(Pid, W);
await({{over, Dialler, connected}, W}, Peer, {connecting, Id, Dialler}, Pid) ->
    put_proc(Pid, {setup, Peer, {await, {shaking, Id}}}, W#w{socks = (W#w.socks)#{Id => Pid}});
await({{over, _, _}, W}, _, _, _) -> W.

end_dial(none, _, W) -> W;
end_dial({shaking, Id}, _, W) -> unsocket(Id, W);
end_dial({connecting, _, Dialler}, Pid, W0) ->
    #w{inbox = Inbox} = W = die(Dialler, W0),
    W#w{inbox = Inbox#{Pid => [M || M <- maps:get(Pid, Inbox, []), element(1, M) =/= over orelse element(2, M) =/= Dialler]}}.

again(Pid, Peer, W) -> want(Pid, Peer, put_proc(Pid, {setup, Peer, {await, none}}, W)).

want(Pid, Peer, #w{overs = Overs} = W) ->
    mail(Pid, [{want, #{peer => Peer, cookie => {ok, <<"test">>}, allowed => all}, map_get(Pid, Overs), Pid}], W).

%% ---- a setup's own dial: it comes up with the peer's acknowledgement

own_frame(none, Peer, Id, Pid, W) -> again(Pid, Peer, unsocket(Id, W));
own_frame({doomed, _}, Peer, Id, Pid, W) -> own_end(Peer, Id, Pid, W);
own_frame({out, Peer}, Peer, Id, Pid, W) ->
    case rand:uniform(10) of
        1 -> own_end(Peer, Id, Pid, W);
        N when N < 5 -> W;
        _ -> come_up({setup, Peer, {admitted, Id}}, Peer, Id, Pid, W)
    end.

%% The node has closed it in a step that its process has made.
own_end(Peer, Id, Pid, W0) ->
    W = mail(Pid, [{closed, Id, 'Why', Pid}], unsocket(Id, close(Id, W0))),
    case rand:uniform(4) of
        1 -> die(Pid, W);
        _ -> again(Pid, Peer, W)
    end.

%% A process that dies loses its sockets and its rows; its dialler goes with it. The core hears it later, and that the socket of an
%% end that came up is gone.
die(Pid, #w{procs = Procs} = W) when not is_map_key(Pid, Procs) -> W;
die(Pid, #w{procs = Procs, socks = Socks, rows = Rows, inbox = Inbox, node = Node} = W0) ->
    W1 = cast(Pid, {down, Pid}, W0#w{procs = maps:remove(Pid, Procs), inbox = maps:remove(Pid, Inbox),
                                     socks = without(Pid, Socks), rows = without(Pid, Rows)}),
    W = lists:foldl(fun({Id, Peer}, Now) -> cast({socket, Id}, {gone, Id, Peer}, Now) end, W1,
                    [{Id, Peer} || {Id, {up, Peer}} <- maps:to_list(Node), maps:get(Id, Socks, none) =:= Pid]),
    lists:foldl(fun die/2, W, [D || {D, {dialler, Setup, _}} <- maps:to_list(Procs), Setup =:= Pid]).

%% A dialler is linked to its setup.
crash(Pid, #w{procs = Procs} = W) ->
    case Procs of
        #{Pid := {dialler, Setup, _}} -> die(Setup, die(Pid, W));
        #{} -> die(Pid, W)
    end.

without(Pid, Map) -> maps:filter(fun(_, Holder) -> Holder =/= Pid end, Map).

%% ---- net_kernel: a row that is pending is taken over or not, one that is up is ended first

%% It counts a peer as down, and the process of that connection ends later.
forget_row(Peer, #w{rows = Rows} = W) ->
    #{Peer := Pid} = Rows,
    case maps:get(Pid, W#w.procs) of
        {Kind, What, {Stage, Of}} when Stage =:= admitted; Stage =:= up ->
            put_proc(Pid, {Kind, What, {ending, Of}}, W#w{rows = maps:remove(Peer, Rows)});
        _ -> W
    end.

%% It goes by the order of the names, or by the other one: the machine is right either way.
ask_kernel(none, Peer, Id, Pid, W) -> agreed(Peer, Id, Pid, W);
ask_kernel(Owner, Peer, Id, Pid, W) ->
    IsOther = erlang:phash2({Owner, Id}, 2) =:= 0,
    case {is_up(maps:get(Owner, W#w.procs)), (Peer =:= <<"greater">>) xor IsOther} of
        {true, _} -> agreed(Peer, Id, Pid, die(Owner, W));
        {false, true} -> agreed(Peer, Id, Pid, die(Owner, W));
        {false, false} -> mail(Pid, [{refused, Id, Peer}], put_proc(Pid, {accept, Id, {refusing, Peer}}, W))
    end.

agreed(Peer, Id, Pid, W) ->
    case is_alive(Pid, W) of
        true -> put_proc(Pid, {accept, Id, {asked, Peer}}, W#w{rows = (W#w.rows)#{Peer => Pid}});
        false -> W
    end.

refused(Peer, Id, Pid, W0) ->
    {Answer, W} = report({vetoed, Id, Pid}, settle(Id, Pid, W0)),
    case {is_alive(Pid, W), Answer} of
        {false, _} -> W;
        {true, {give, Setup}} -> give(Id, Pid, Setup, W);
        {true, retry} -> put_proc(Pid, {accept, Id, {ready, Peer}}, W);
        {true, gone} -> die(Pid, W)
    end.

%% The giver may die before it has handed the socket over.
give(Id, Pid, Setup, W) ->
    case is_alive(Setup, W) andalso rand:uniform(8) of
        1 -> crash(Pid, W);
        N when is_integer(N) ->
            Later = send(Setup, {ready, Id, Pid}, W#w{socks = (W#w.socks)#{Id => Setup}}),
            die(Pid, cast(Pid, {handed, Id, Pid}, Later));
        false -> crash(Pid, W)
    end.

%% ---- the node: its verdicts are those of the table of peers, its digests and losses are drawn

%% A frame of an accepted connection, after the name: nothing is done by the one that would bring it up.
frame(none, _, Pid, W) -> die(Pid, W);
frame({in, Peer}, Id, Pid, W) ->
    case rand:uniform(10) of
        1 -> die(Pid, mail(Pid, [{closed, Id, 'Why', Pid}], close(Id, W)));
        2 -> die(Pid, mail(Pid, [{given_up, Id, Pid}], W));
        N when N < 5 -> W;
        _ -> put_proc(Pid, {accept, Id, {ready, Peer}}, W)
    end.

%% The step that brings an end up, by the process that holds its socket. Where an old one with that peer is up, it is held, and the
%% process asks that the old one go.
come_up(Next, Peer, Id, Pid, #w{admitted = Admitted} = W) ->
    false = is_map_key(Id, Admitted),
    true = maps:get(Id, W#w.socks) =:= Pid,
    case up_end(Peer, W) of
        none -> put_proc(Pid, Next, mail(Pid, [{came_up, Id, Pid}], set(Id, {up, Peer}, W#w{admitted = Admitted#{Id => true}})));
        Old -> mail(Pid, [{end_shown, Old}], W)
    end.

up_end(Peer, #w{node = Node}) ->
    case [Id || {Id, {up, P}} <- maps:to_list(Node), P =:= Peer] of
        [] -> none;
        [Up] -> Up
    end.

pending(Peer, #w{node = Node}) ->
    case [{Phase, Id} || {Id, {Phase, P}} <- maps:to_list(Node), P =:= Peer, Phase =:= in orelse Phase =:= out] of
        [] -> none;
        [One] -> One
    end.

close(Id, #w{node = Node} = W) -> W#w{node = maps:remove(Id, Node)}.

%% Now and then a newcomer needs room.
make_room(W) ->
    case {rand:uniform(10), [Id || {Id, {Phase, _}} <- maps:to_list(W#w.node), Phase =/= up]} of
        {1, [Id | _]} -> {[{closed, Id, 'Why', none}], close(Id, W)};
        _ -> {[], W}
    end.

dial(Peer, #w{node = Node} = W0) ->
    case [{Phase, Id} || {Id, {Phase, P}} <- maps:to_list(Node), P =:= Peer, Phase =/= doomed] of
        [] ->
            {Room, W1} = make_room(W0),
            {Id, W} = fresh(W1),
            events(none, [{dialled, Peer, Id}] ++ Room, set(Id, {out, Peer}, W));
        Held -> busy(Peer, proplists:get_value(up, Held, none), W0)
    end.

%% Who has net_kernel's row and has brought the emulator up is not killed.
busy(Peer, Up, #w{rows = Rows, procs = Procs} = W0) ->
    W = report_({busy, Peer, Up}, W0),
    [true = is_alive(Pid, W) || #{Peer := Pid} <- [Rows], emulator_up(map_get(Pid, Procs)) =/= false],
    W.

%% ---- the machine, as distnode_core has it

events(Pid, Events, W) -> lists:foldl(fun(Event, Now) -> event(Event, Pid, Now) end, W, Events).

event({refused, Id, Peer}, Pid, W) -> refused(Peer, Id, Pid, W);
event({check, Id}, _, W) -> settle(Id, none, W);
event({end_shown, Id}, _, #w{links = Links} = W) -> die(distnode_links:owner(Id, Links), W);
event({gone, Id, _} = Event, _, #w{node = Node, socks = Socks} = W) ->
    {up, _} = maps:get(Id, Node),
    false = is_map_key(Id, Socks),
    report_(Event, close(Id, W));
event(Event, _, W) -> report_(Event, W).

%% An end that was closed, and that isn't reported yet, or was before it was reported that it had come.
settle(Id, By, #w{links = Links, node = Node} = W) ->
    case distnode_links:owner(Id, Links) =/= none andalso not is_map_key(Id, Node) of
        true -> report_({closed, Id, 'Why', By}, W);
        false -> W
    end.

report_(Event, W) -> element(2, report(Event, W)).

report(Event, #w{links = Links} = W) ->
    {Answer, Actions, Next} = distnode_links:event(Event, Links),
    {Answer, lists:foldl(fun do/2, W#w{links = Next}, Actions)}.

do({send, Pid, Message}, W) -> send(Pid, Message, W);
do({kill, Pid}, W) -> die(Pid, W);
do({lose, Id, _, _}, #w{node = Node} = W) ->
    case Node of
        #{Id := {up, _}} -> W;
        #{Id := _} -> close(Id, W);
        #{} ->
            true = lists:member(Id, mailed(closed, W)),
            W
    end;
do({dial, #{peer := Peer}}, W) -> dial(Peer, W).

mail(Pid, Events, #w{mail = Mail} = W) -> W#w{mail = Mail ++ [{Pid, Events}]}.

%% The mail in its order; what a process has cast, and its end, in no order with that of others, but after its own mail.
deliver_any(#w{mail = Mail, casts = Casts} = W) ->
    Early = [Pid || {Pid, _} <- Mail] ++ [{socket, Id} || Id <- mailed(came_up, W)],
    Late = maps:keys(Casts) -- Early,
    case any([mail || Mail =/= []] ++ Late) of
        none -> W;
        {ok, mail} ->
            [{Pid, Events} | Rest] = Mail,
            events(Pid, Events, W#w{mail = Rest});
        {ok, Pid} -> deliver(Pid, W)
    end.

deliver(Pid, #w{casts = Casts} = W) ->
    #{Pid := [Event | Rest]} = Casts,
    Left = case Rest of [] -> maps:remove(Pid, Casts); _ -> Casts#{Pid => Rest} end,
    event(Event, Pid, W#w{casts = Left}).

cast(Pid, Event, #w{casts = Casts} = W) -> W#w{casts = Casts#{Pid => maps:get(Pid, Casts, []) ++ [Event]}}.

%% ---- small things

spawned(Proc, W0) ->
    {N, W} = fresh(W0),
    {{pid, N}, put_proc({pid, N}, Proc, W)}.

fresh(#w{next = N} = W) -> {N, W#w{next = N + 1}}.

put_proc(Pid, Proc, #w{procs = Procs} = W) -> W#w{procs = Procs#{Pid => Proc}}.
set(Id, End, #w{node = Node} = W) -> W#w{node = Node#{Id => End}}.
unsocket(Id, #w{socks = Socks} = W) -> W#w{socks = maps:remove(Id, Socks)}.
is_alive(Pid, #w{procs = Procs}) -> is_map_key(Pid, Procs).

send(Pid, Message, #w{procs = Procs, inbox = Inbox} = W) when is_map_key(Pid, Procs) ->
    W#w{inbox = Inbox#{Pid => maps:get(Pid, Inbox, []) ++ [Message]}};
send(_, _, W) -> W.

pop(Pid, #w{inbox = Inbox} = W) ->
    case Inbox of
        #{Pid := [Message | Rest]} -> {Message, W#w{inbox = Inbox#{Pid => Rest}}};
        #{} -> {none, W}
    end.

one_of(List) -> lists:nth(rand:uniform(length(List)), List).

any([]) -> none;
any(List) -> {ok, one_of(List)}.
