%% SPDX-License-Identifier: Apache-2.0
%% What takes longer than a test may: random connects and kills for minutes with the tables compared while they change, knocks
%% and strangers by the thousand, ten hours' worth of reconnects, and connect times and messages beside OTP's own carrier.
-module(long_runs).
-export([main/1]).
-import(cases, [with/2]).

-define(FLAGS, 16#d07df7fbd).
-define(QUIET, ["-connect_all", "false", "-kernel", "prevent_overlapping_partitions", "false"]).

main([Seconds | Words]) ->
    {Mapper, OsPid} = test_nodes:port_mapper(),
    Runs = [{"random", fun() -> random(list_to_integer(Seconds)) end},
            {"knocks", fun() -> knocks(Mapper, 20000) end},
            {"strangers", fun() -> strangers(Mapper, 1100) end},
            {"all_ends", fun() -> all_ends(66000) end},
            {"more_up_than_cookies", fun() -> more_up_than_cookies(Mapper, 1030) end},
            {"nodes_after_a_cookie_change", fun() -> after_a_change(5000, Mapper) end},
            {"no_descriptors", fun() -> no_descriptors(Mapper) end},
            {"impostor", fun() -> impostor(Mapper) end},
            {"reconnects", fun() -> reconnects(72000) end},
            {"connect_times", fun() -> connect_times(5) end},
            {"messages", fun() -> messages(5, 200000) end}],
    Failed = [Name || {Name, Run} <- Runs, Words =:= [] orelse lists:member(Name, Words), not passes(Name, Run)],
    os:cmd("kill " ++ integer_to_list(OsPid)),
    halt(case Failed of [] -> 0; _ -> 1 end).

passes(Name, Run) ->
    Begin = erlang:monotonic_time(millisecond),
    {Outcome, Text} = try {"passed", Run()} catch Class:Reason:Stack -> {"FAILED", io_lib:format("~p", [{Class, Reason, Stack}])} end,
    io:format("~s ~s (~b s): ~ts~n", [Outcome, Name, (erlang:monotonic_time(millisecond) - Begin) div 1000, Text]),
    Outcome =:= "passed".

n(Node) -> test_nodes:name(Node).
c(Node, M, F, A) -> test_nodes:call(Node, M, F, A).

both_up(A, B) -> true = test_nodes:wait(fun() -> c(A, test_agent, row, [n(B)]) =/= none andalso c(B, test_agent, row, [n(A)]) =/= none end, 20000).
agreed(Node) -> true = test_nodes:wait(fun() -> c(Node, test_agent, is_agreed, []) end, 20000).

%% Three nodes connect and disconnect at random, and a fourth is killed and comes back.
random(Seconds) ->
    with([{Short, ours, ?QUIET} || Short <- ["a", "b", "c"]],
         fun(Three) ->
                 Names = [n(X) || X <- Three] ++ ['d@127.0.0.1'],
                 Until = erlang:system_time(millisecond) + 1000 * Seconds,
                 Self = self(),
                 Wait = 1000 * Seconds + 60000,
                 [spawn_link(fun() -> Self ! {X, test_nodes:call(X, test_agent, traffic_observed, [Names -- [n(X)], Until], Wait)} end)
                  || X <- Three],
                 {D, Kills} = killed([n(X) || X <- Three], Until, 0),
                 try
                     Seen = [receive {X, Counts} -> Counts after 60000 -> error({busy, n(X)}) end || X <- Three],
                     [] = lists:append([Apart || {_, _, Apart} <- Seen]),
                     Four = Three ++ [D],
                     [agreed(X) || X <- Four],
                     [begin
                          true = test_nodes:wait(fun() -> c(X, net_kernel, connect_node, [n(Y)]) end, 20000),
                          both_up(X, Y)
                      end || X <- Four, Y <- Four, n(X) < n(Y)],
                     [agreed(X) || X <- Four],
                     io_lib:format("~b actions, ~b kills, ~b looks at both tables, none apart",
                                   [lists:sum([N || {N, _, _} <- Seen]), Kills, lists:sum([N || {_, N, _} <- Seen])])
                 after test_nodes:stop(D)
                 end
         end).

killed(Names, Until, Kills) ->
    D = test_nodes:start("d", ours, ?QUIET),
    _ = c(D, test_agent, traffic, [Names, min(Until, erlang:system_time(millisecond) + 2000)]),
    case erlang:system_time(millisecond) >= Until of
        true -> {D, Kills};
        false -> test_nodes:kill(D), killed(Names, Until, Kills + 1)
    end.

%% Connections that come, say nothing and go.
knocks(Mapper, N) ->
    with([{"a", ours, ?QUIET}, {"b", ours, ?QUIET}],
         fun([A, B]) ->
                 Port = other_side:port_of("a", Mapper),
                 [other_side:close(other_side:connect(Port)) || _ <- lists:seq(1, 1000)],
                 agreed(A),
                 Before = c(A, test_agent, memory, []),
                 [other_side:close(other_side:connect(Port)) || _ <- lists:seq(1, N)],
                 {Took, true} = timer:tc(fun() -> c(B, net_kernel, connect_node, [n(A)]) end),
                 agreed(A),
                 io_lib:format("~b knocks, then a peer connects in ~b ms; ~b KiB before, ~b after", [N, Took div 1000, Before, c(A, test_agent, memory, [])])
         end).

%% Names without a cookie, all held at once.
strangers(Mapper, N) ->
    with([{"a", ours, ?QUIET}, {"b", ours, ?QUIET}, {"o", otp, ?QUIET}],
         fun([A, B, O]) ->
                 Port = other_side:port_of("a", Mapper),
                 Held = [stranger(Port, integer_to_binary(I)) || I <- lists:seq(1, N)],
                 Took = [element(1, {_, true} = timer:tc(fun() -> c(X, net_kernel, connect_node, [n(A)]) end)) div 1000 || X <- [B, O]],
                 [other_side:close(Socket) || Socket <- Held],
                 agreed(A),
                 io_lib:format("~b strangers held, peers connect beside them in ~w ms", [N, Took])
         end).

%% All 65,536 ends of a node are open, and more strangers came: the ones that have been pending for the longest made room, in their
%% order, and so they do for peers. The strangers have no sockets, since few systems let a process have so many.
all_ends(N) ->
    with([{"a", ours, ?QUIET}, {"b", ours, ?QUIET}, {"o", otp, ?QUIET}],
         fun([A, B, O]) ->
                 Before = c(A, test_agent, memory, []),
                 {Came, 65536} = timer:tc(fun() -> test_nodes:call(A, test_agent, crowd, [N, ?FLAGS], 300000) end),
                 After = c(A, test_agent, memory, []),
                 Took = [element(1, {_, true} = timer:tc(fun() -> c(X, net_kernel, connect_node, [n(A)]) end)) div 1000 || X <- [B, O]],
                 [both_up(A, X) || X <- [B, O]],
                 65536 = maps:get(open, c(A, distnode_core, table, [])),
                 Closed = c(A, test_agent, crowd_closed, []),
                 Closed = lists:seq(1, N + 2 - 65536),
                 agreed(A),
                 io_lib:format("~b strangers came in ~b ms, 65,536 ends open; peers connect beside them in ~w ms; the first ~b were closed; "
                               "~b KiB before, ~b after", [N, Came div 1000, Took, length(Closed), Before, After])
         end).

%% More peers are up than the library keeps cookies of their own, and the cookie is changed; strangers say more names than that, too.
more_up_than_cookies(Mapper, N) ->
    with([{"a", ours, ?QUIET}, {"b", ours, ["-setcookie", "new" | ?QUIET]}, {"o", otp, ["-setcookie", "new" | ?QUIET]}],
         fun([A, B, O]) ->
                 Port = other_side:port_of("a", Mapper),
                 Up = [cases:comes_up(Port, <<"up", (integer_to_binary(I))/binary>>, "test") || I <- lists:seq(1, N)],
                 agreed(A),
                 true = c(A, erlang, set_cookie, [new]),
                 Held = [stranger(Port, integer_to_binary(I)) || I <- lists:seq(1, N)],
                 Took = [element(1, {_, true} = timer:tc(fun() -> c(X, net_kernel, connect_node, [n(A)]) end)) div 1000 || X <- [B, O]],
                 [both_up(A, X) || X <- [B, O]],
                 #{lent := Lent} = c(A, distnode_core, table, []),
                 [other_side:close(Socket) || Socket <- Held ++ Up],
                 true = test_nodes:wait(fun() -> maps:get(lent, c(A, distnode_core, table, [])) =:= 2 end, 20000),
                 [both_up(A, X) || X <- [B, O]],
                 agreed(A),
                 io_lib:format("~b peers up, the cookie changed, ~b strangers held: peers connect beside them in ~w ms; cookies lent: ~b",
                               [N, N, Took, Lent])
         end).

after_a_change(N, Mapper) ->
    _ = cases:after_a_change(fun cases:came/2, N, Mapper),
    io_lib:format("~b nodes with the new cookie came and went", [N]).

%% A node that may have 200 descriptors, and strangers who hold more connections than that and say nothing: it goes on, and a peer
%% connects once they are given up. And the same of a node with OTP's own carrier.
no_descriptors(Mapper) ->
    with([{"a", {limited, ours}, ?QUIET}, {"o", {limited, otp}, ?QUIET}, {"b", otp, ?QUIET}],
         fun([A, O, B]) ->
                 [Ours, Otp] = [begin
                                    Port = other_side:port_of(Short, Mapper),
                                    Held = [other_side:connect(Port) || _ <- lists:seq(1, 260)],
                                    receive after 2000 -> ok end,
                                    Took = timer:tc(fun() -> test_nodes:wait(fun() -> c(B, net_kernel, connect_node, [n(X)]) end, 20000) end),
                                    [other_side:close(Socket) || Socket <- Held],
                                    {Took, test_nodes:is_alive(X)}
                                end || {X, Short} <- [{A, "a"}, {O, "o"}]],
                 {{_, true}, true} = Ours,
                 agreed(A),
                 io_lib:format("a peer's connect, in microseconds, and whether the node lives: ~p, and ~p of a node of OTP's", [Ours, Otp])
         end).

stranger(Port, Name) ->
    Socket = other_side:connect(Port),
    ok = other_side:say_name(Socket, ?FLAGS, <<"stranger", Name/binary, "@127.0.0.1">>),
    <<"ok">> = other_side:status(Socket),
    Socket.

%% Somebody without the cookie holds a handshake in a peer's name, at a node of ours and at one of OTP's; then the peer connects.
impostor(Mapper) ->
    with([{"a", ours, ?QUIET}, {"o", otp, ?QUIET}, {"b", otp, ?QUIET}],
         fun([A, O, B]) ->
                 [Ours, Otp] = [begin
                                    Socket = other_side:connect(other_side:port_of(Short, Mapper)),
                                    ok = other_side:say_name(Socket, ?FLAGS, atom_to_binary(n(B))),
                                    <<"ok">> = other_side:status(Socket),
                                    {Took, Answer} = timer:tc(fun() -> c(B, net_kernel, connect_node, [n(X)]) end),
                                    other_side:close(Socket),
                                    [Answer, Took div 1000]
                                end || {X, Short} <- [{A, "a"}, {O, "o"}]],
                 true = hd(Ours),
                 io_lib:format("the peer's connect answers ~w after ~w ms, and ~w after ~w ms at a node of OTP's", Ours ++ Otp)
         end).

%% As many as a peer makes in ten hours that comes and goes twice a second.
reconnects(N) ->
    with([{"a", ours, ?QUIET}, {"b", ours, ?QUIET}],
         fun([A, B]) ->
                 Rounds = N div 1000,
                 _ = reconnect(A, B, 1000),
                 Before = c(B, test_agent, memory, []),
                 Medians = [reconnect(A, B, 1000) || _ <- lists:seq(2, Rounds)],
                 [agreed(X) || X <- [A, B]],
                 io_lib:format("~b connects; median ~b us in the first thousand, ~b in the last; ~b KiB before, ~b after",
                               [N, hd(Medians), lists:last(Medians), Before, c(B, test_agent, memory, [])])
         end).

reconnect(A, B, N) ->
    Times = c(A, test_agent, reconnect, [n(B), N]),
    true = is_integer(lists:last(Times)),
    median(Times).

%% net_kernel:connect_node, so many thousand times, beside OTP's own carrier: in turns of 20 each, and who is first changes. Nobody
%% connects but by that call: what a node still sends to one that has just gone would dial it, too. A pair's processor time is that of its
%% two nodes, which do nothing while it is the other pair's turn.
connect_times(Thousands) ->
    Quiet = ["-kernel", "dist_auto_connect", "never" | ?QUIET],
    with([{"a", ours, Quiet}, {"b", ours, Quiet}, {"o", otp, Quiet}, {"p", otp, Quiet}],
         fun([A, B, O, P]) ->
                 _ = turns({A, B}, {O, P}, 10),
                 {Seen, Spent} = lists:unzip([thousand({A, B}, {O, P}) || _ <- lists:seq(1, Thousands)]),
                 All = {lists:append([Ours || {Ours, _} <- Seen]), lists:append([Otp || {_, Otp} <- Seen])},
                 {Own, Others} = {lists:sum([X || {X, _} <- Spent]), lists:sum([Y || {_, Y} <- Spent])},
                 io_lib:format("ours and OTP's own, in microseconds, and ours by OTP's~n~ts  all ~b: ~ts~n  least tenth ~ts~n  refused ~w~n"
                               "  processor time of both nodes, in milliseconds: ~b ~b ~.3f",
                               [[["  median of 1000: ", beside(2, Pair), $\n] || Pair <- Seen], length(element(1, All)),
                                beside(2, All), beside(10, All), [refused(Times) || Times <- tuple_to_list(All)], Own, Others, Own / Others])
         end).

thousand(Ours, Otp) ->
    {Before, BeforeOtp} = {processor(Ours), processor(Otp)},
    Times = turns(Ours, Otp, 50),
    {Times, {processor(Ours) - Before, processor(Otp) - BeforeOtp}}.

processor({A, B}) -> lists:sum([element(1, c(X, erlang, statistics, [runtime])) || X <- [A, B]]).

turns(Ours, Otp, N) -> turns(Ours, Otp, N, [], []).

turns(_, _, 0, Ours, Otp) -> {lists:append(Ours), lists:append(Otp)};
turns({A, B}, {O, P}, N, Ours, Otp) when N rem 2 =:= 0 ->
    Mine = c(A, test_agent, reconnect, [n(B), 20]),
    turns({A, B}, {O, P}, N - 1, [Mine | Ours], [c(O, test_agent, reconnect, [n(P), 20]) | Otp]);
turns({A, B}, {O, P}, N, Ours, Otp) ->
    Theirs = c(O, test_agent, reconnect, [n(P), 20]),
    turns({A, B}, {O, P}, N - 1, [c(A, test_agent, reconnect, [n(B), 20]) | Ours], [Theirs | Otp]).

beside(Part, {Ours, Otp}) ->
    [X, Y] = [lists:nth(length(Times) div Part, lists:sort(Times)) || Times <- [Ours, Otp]],
    io_lib:format("~b ~b ~.3f", [X, Y, X / Y]).

refused(Times) -> length([refused || refused <- Times]).

median(List) -> lists:nth(length(List) div 2, lists:sort(List)).

messages(Rounds, N) ->
    with([{"a", ours, ?QUIET}, {"b", ours, ?QUIET}, {"o", otp, ?QUIET}, {"p", otp, ?QUIET}],
         fun([A, B, O, P]) ->
                 [true = c(X, test_agent, sink, []) || X <- [B, P]],
                 Both = [{flood(A, B, N), flood(O, P, N)} || _ <- lists:seq(1, Rounds)],
                 Ours = median([X || {X, _} <- Both]),
                 Otp = median([X || {_, X} <- Both]),
                 io_lib:format("median of ~b times ~b messages: ~b us, OTP's own carrier ~b us, ~.2f of it", [Rounds, N, Ours, Otp, Ours / Otp])
         end).

flood(A, B, N) ->
    {Took, N} = timer:tc(fun() -> c(A, test_agent, flood, [n(B), N]) end),
    Took.
