%% SPDX-License-Identifier: Apache-2.0
%% The carrier on the installed OTP: nodes of its own and ordinary ones, over 127.0.0.1. Nothing sleeps to wait: each condition
%% has a deadline.
-module(cases).
-export([main/0, main/1, main/2, between/2, after_a_change/3, came/2, comes_up/3]).
-export([with/2, connect/2, both_up/2, apart/2, agreed/1, copy/2]).

-include_lib("kernel/include/dist.hrl").

-define(FLAGS, 16#d07df7fbd).   % those that OTP 25 announces, DFLAG_PUBLISHED among them

%% global's own links would connect again what a case has disconnected.
-define(QUIET, ["-connect_all", "false", "-kernel", "prevent_overlapping_partitions", "false"]).

main() -> main([]).
main(Words) -> main(fun cases/1, Words).

main(AllCases, Words) ->
    {Mapper, OsPid} = test_nodes:port_mapper(),
    Cases = [Case || {Name, _} = Case <- AllCases(Mapper), Words =:= [] orelse lists:member(Name, Words)],
    Failed = length([Name || {Name, Body} <- Cases, not passes(Name, Body)]),
    os:cmd("kill " ++ integer_to_list(OsPid)),
    io:format("~b passed, ~b failed~n", [length(Cases) - Failed, Failed]),
    halt(case Failed of 0 -> 0; _ -> 1 end).

passes(Name, Body) ->
    Begin = erlang:monotonic_time(millisecond),
    {Outcome, Text} = try Body() of
                          Said -> {true, said(Said)}
                      catch
                          Class:Reason:Stack -> {false, io_lib:format("~n  ~p", [{Class, Reason, Stack}])}
                      end,
    io:format("~s ~s (~b ms)~ts~n", [case Outcome of true -> "passed"; false -> "FAILED" end, Name,
                                     erlang:monotonic_time(millisecond) - Begin, Text]),
    Outcome.

said({said, Format, Arguments}) -> [": ", io_lib:format(Format, Arguments)];
said(_) -> "".

%% Where the environment has TLS=1, all nodes are over TLS.
cases(Mapper) ->
    common(Mapper) ++ [Case || code:which(ssl) =/= non_existing, Case <- over_tls(Mapper)].

common(Mapper) ->
    [{"links_walk", fun links_walk:run/0},
     {"ping_and_calls", fun ping_and_calls/0},
     {"many_messages", fun many_messages/0},
     {"over_ipv6", fun over_ipv6/0},
     {"two_carriers", fun() -> with_tls("0", fun two_carriers/0) end},
     {"addresses_as_of_ordinary_nodes", fun addresses/0},
     {"dials_leave_nothing", fun dials_leave_nothing/0},
     {"dead_host", fun() -> dead_host(Mapper) end},
     {"nok_without_end", fun() -> with_tls("0", fun nok_without_end/0) end},
     {"crossing_dials", fun() -> crossing(ours, ours, 60) end},
     {"crossing_dials_ordinary_lesser", fun() -> crossing(otp, ours, 40) end},
     {"crossing_dials_ordinary_greater", fun() -> crossing(ours, otp, 40) end},
     {"random_connects_and_kills", fun random_traffic/0},
     {"kill_and_restart", fun kill_and_restart/0},
     {"shown_as_long_as_its_controller", fun shown_as_long/0},
     {"frame_is_held", fun() -> held(Mapper) end},
     {"frozen_connection_is_replaced", fun() -> [frozen(A, B, Mapper) || {A, B} <- [{ours, ours}, {otp, ours}, {ours, otp}]] end},
     {"wrong_cookie", fun wrong_cookie/0},
     {"cookies_at_run_time", fun cookies_at_run_time/0},
     {"cookies_without_use", fun without_use/0},
     {"cookie_changed_meanwhile", fun changed_meanwhile/0},
     {"half_open_at_a_cookie_change", fun() -> half_open(Mapper) end},
     {"names_after_a_cookie_change", fun() -> after_a_change(fun said/2, case test_nodes:is_tls() of false -> 5000; true -> 1100 end, Mapper) end},
     {"nodes_after_a_cookie_change", fun() -> after_a_change(fun came/2, 1100, Mapper) end},
     {"all_cookies_are_lent", fun all_lent/0},
     {"names_in_the_log", fun() -> names_in_the_log(Mapper) end},
     {"name_beyond_ascii", fun() -> beyond_ascii(Mapper) end},
     {"names_that_net_kernel_refuses", fun() -> not_taken(Mapper) end},
     {"flags_that_are_missing", fun() -> with_tls("0", fun() -> missing_flags(Mapper) end) end},
     {"started_at_run_time", fun started_at_run_time/0},
     {"allow_list_at_run_time", fun allow_list/0},
     {"veto_before_acknowledgement", fun() -> veto(Mapper) end},
     {"hidden", fun hidden/0},
     {"hidden_group", fun hidden_group/0},
     {"nodes_without_a_name", fun nameless/0},
     {"long_and_short_names", fun() -> [named_hosts(Length) || Length <- [long, short]] end},
     {"own_networks", fun own_networks/0},
     {"global", fun global_names/0},
     {"ticks", fun ticks/0},
     {"strangers", fun() -> strangers(Mapper) end},
     {"stranger_at_the_last_descriptor", fun() -> with_tls("0", fun() -> last_descriptor(Mapper) end) end},
     {"impostor", fun() -> impostor(Mapper) end},
     {"numbers_run_out", fun() -> numbers_run_out(Mapper) end},
     {"orders_swept", fun() -> with_tls("0", fun() -> order_sweeps:some(Mapper) end) end},
     {"embedded_release", fun embedded_release/0},
     {"killed_core", fun killed_core/0},
     {"recording_elsewhere", fun recording_elsewhere/0},
     {"library_at_run_time", fun library_at_run_time/0},
     {"unfit_library", fun unfit_library/0},
     {"unfit_archive", fun unfit_archive/0}].

over_tls(Mapper) ->
    [{Name, fun() -> with_tls("1", Body) end}
     || {Name, Body} <- [{"crossing_dials_over_tls", fun() -> crossing(ours, ours, 20) end},
                         {"kill_and_restart_over_tls", fun kill_and_restart/0},
                         {"certificate_of_a_stranger", fun untrusted/0},
                         {"certificate_of_another_host", fun elsewhere/0},
                         {"plain_strangers_at_a_tls_port", fun() -> plain_strangers(Mapper) end},
                         {"tls_and_tcp_apart", fun tls_and_tcp/0}]].

with_tls(Is, Body) ->
    Before = os:getenv("TLS", "0"),
    true = os:putenv("TLS", Is),
    try Body()
    after os:putenv("TLS", Before)
    end.

%% ---- what the cases stand on

n(Node) -> test_nodes:name(Node).
c(Node, M, F, A) -> test_nodes:call(Node, M, F, A).
connect(A, B) -> c(A, net_kernel, connect_node, [n(B)]).

with(Specs, Body) ->
    Nodes = test_nodes:start(Specs),
    try Body(Nodes)
    after [test_nodes:stop(Node) || Node <- Nodes]
    end.

%% Both count each other as up on one connection, or neither does.
pair(A, B) ->
    case {c(A, test_agent, row, [n(B)]), c(B, test_agent, row, [n(A)])} of
        {{up, {{ok, X}, {ok, Y}}}, {up, {{ok, Y}, {ok, X}}}} -> {up, X, Y};
        {none, none} -> none;
        Other -> {apart, Other}
    end.

settled(A, B) ->
    true = test_nodes:wait(fun() -> case pair(A, B) of {apart, _} = Apart -> Apart; _ -> true end end, 10000),
    case pair(A, B) of
        none -> {none};
        Pair -> Pair
    end.

both_up(A, B) -> {up, _, _} = settled(A, B).

agreed(Nodes) -> [true = test_nodes:wait(fun() -> c(Node, test_agent, is_agreed, []) end, 10000) || Node <- Nodes].

apart(A, B) ->
    true = test_nodes:wait(fun() -> c(A, erlang, disconnect_node, [n(B)]), pair(A, B) =:= none end, 10000).

%% ---- the cases

ping_and_calls() ->
    with([{"a", ours, ?QUIET}, {"b", ours, ?QUIET}, {"o", otp, ?QUIET}],
         fun([A, B, O]) ->
                 [pong = c(X, net_adm, ping, [n(Y)]) || {X, Y} <- [{A, B}, {B, A}, {O, A}, {B, O}]],
                 [both_up(X, Y) || {X, Y} <- [{A, B}, {A, O}, {B, O}]],
                 [begin
                      Name = n(Y),
                      Name = c(X, rpc, call, [Name, erlang, node, []]),
                      Name = c(X, erpc, call, [Name, erlang, node, []])
                  end || X <- [A, B, O], Y <- [A, B, O], X =/= Y],
                 agreed([A, B]),
                 pang = c(A, net_adm, ping, ['nobody@127.0.0.1']),
                 agreed([A])
         end).

many_messages() ->
    with([{"a", ours, ?QUIET}, {"b", ours, ?QUIET}, {"o", otp, ?QUIET}],
         fun([A, B, O]) ->
                 [true = c(X, test_agent, sink, []) || X <- [A, B, O]],
                 [50000 = c(X, test_agent, flood, [n(Y), 50000]) || {X, Y} <- [{A, B}, {B, A}, {A, O}, {O, A}]],
                 agreed([A, B])
         end).

over_ipv6() ->
    with([{"a", ours6, ?QUIET}, {"b", ours6, ?QUIET}, {"o", otp6, ?QUIET}],
         fun([A, B, O] = All) ->
                 [begin true = connect(X, Y), both_up(X, Y) end || {X, Y} <- [{A, B}, {O, A}, {B, O}]],
                 [begin
                      Name = n(Y),
                      Name = c(X, erpc, call, [Name, erlang, node, []])
                  end || X <- All, Y <- All, X =/= Y],
                 agreed([A, B]),
                 apart(B, A),
                 true = connect(B, A),
                 agreed([A, B])
         end).

%% Two carriers have one core. As with those of OTP, the one that comes second doesn't register the node's name once more.
two_carriers() ->
    Tls = case code:which(ssl) of
              non_existing -> [];
              _ -> [{"d", ours_and_tls, ["-ssl_dist_optfile", test_certificates:options("node") | ?QUIET]}]
          end,
    with([{"b", ours, ?QUIET}, {"o", otp, ?QUIET}, {"a", ours_and_6, ?QUIET} | Tls],
         fun([B, O | Both]) ->
                 [begin
                      true = connect(X, Y),
                      both_up(X, Y),
                      agreed([Two, B]),
                      apart(X, Y)
                  end || Two <- Both, Other <- [B, O], {X, Y} <- [{Two, Other}, {Other, Two}]],
                 {said, "~b nodes with two carriers", [length(Both)]}
         end).

%% A peer's address is what OTP's carrier would have of it: host, protocol and family.
addresses() ->
    with([{"a", ours, ?QUIET}, {"b", ours, ?QUIET}, {"o", otp, ?QUIET}, {"p", otp, ?QUIET}],
         fun([A, B, O, P]) ->
                 true = connect(O, P),
                 Ordinary = address(O, P),
                 [begin
                      true = connect(X, Y),
                      both_up(X, Y),
                      [Ordinary = address(Of, Other) || {Of, Other} <- [{X, Y}, {Y, X}]],
                      apart(X, Y)
                  end || {X, Y} <- [{A, B}, {A, O}, {O, A}]]
         end).

address(Of, Peer) ->
    {ok, Info} = c(Of, net_kernel, node_info, [n(Peer)]),
    {net_address, {{127, 0, 0, 1}, _}, Host, Protocol, Family} = proplists:get_value(address, Info),
    {Host, Protocol, Family}.

%% A dial that has ended leaves neither its peer's name nor a cookie at the core.
dials_leave_nothing() ->
    with([{"a", ours, ?QUIET}, {"b", ours, ?QUIET}],
         fun([A, B]) ->
                 Dial = fun(I) ->
                                Name = list_to_atom("nobody" ++ integer_to_list(I) ++ "@127.0.0.1"),
                                true = c(A, erlang, set_cookie, [Name, 'a_cookie_of_its_own']),
                                false = c(A, net_kernel, connect_node, [Name])
                        end,
                 Size = fun() -> erts_debug:flat_size(c(A, sys, get_state, [distnode_core])) end,
                 true = connect(A, B),
                 %% (what is still sent to a node that has just gone would dial it)
                 [ok = c(Node, application, set_env, [kernel, dist_auto_connect, never]) || Node <- [A, B]],
                 apart(A, B),
                 Dial(0),
                 agreed([A]),
                 Before = Size(),
                 [Dial(I) || I <- lists:seq(1, 200)],
                 agreed([A]),
                 true = test_nodes:wait(fun() -> case Size() of Now when Now =< Before -> true; Now -> {Before, Now} end end, 5000)
         end).

%% A host that is gone takes no connection at its port mapper's port, and one that is frozen takes it and says nothing. A dial has the time
%% of one setup, net_setuptime, until it has a connection.
dead_host(Mapper) ->
    Dead = other_side:full({127, 0, 0, 4}, Mapper),
    {ok, Silent} = gen_tcp:listen(Mapper, [{ip, {127, 0, 0, 5}}]),
    with([{"a", ours, ["-kernel", "net_setuptime", "2" | ?QUIET]}],
         fun([A]) ->
                 Took = [is_given_up(A, Name) || Name <- ['x@127.0.0.4', 'x@127.0.0.5']],
                 [gen_tcp:close(Socket) || Socket <- [Silent | Dead]],
                 {said, "given up after ~p ms", [Took]}
         end).

%% Whoever answers in the place of a node says that this is about to dial itself, at once or after a while, and it never does: all attempts
%% together have the time of one setup.
nok_without_end() ->
    with([{"a", ours, ["-epmd_module", "relay_epmd", "-kernel", "net_setuptime", "2" | ?QUIET]}],
         fun([A]) ->
                 Took = [begin
                             {Pid, Port} = other_side:accepts(fun(Socket) ->
                                                                      {ok, <<$N, _/binary>>} = other_side:recv(Socket, 5000),
                                                                      receive after After -> other_side:send(Socket, <<"snok">>) end,
                                                                      other_side:recv(Socket, 60000)
                                                              end),
                             ok = c(A, relay_epmd, instead, ["x", Port]),
                             Time = is_given_up(A, 'x@127.0.0.1'),
                             exit(Pid, kill),
                             Time
                         end || After <- [0, 700]],
                 {said, "given up after ~p ms", [Took]}
         end).

%% By a node whose net_setuptime is 2 seconds.
is_given_up(A, Name) ->
    {Microseconds, false} = c(A, timer, tc, [net_kernel, connect_node, [Name]]),
    true = Microseconds < 6000000 orelse {late, Name, Microseconds},
    agreed([A]),
    Microseconds div 1000.

%% Both sides connect at one moment, give or take 0.2 milliseconds: both answer true, and both hold the same connection.
crossing(KindA, KindB, Rounds) ->
    with([{"a", KindA, ?QUIET}, {"b", KindB, ?QUIET}],
         fun([A, B]) ->
                 Ours = [Node || {Node, Kind} <- [{A, KindA}, {B, KindB}], is_ours(Kind)],
                 [cross(A, B, Ours) || _ <- lists:seq(1, Rounds)],
                 Counts = [c(Node, distnode_core, counts, []) || Node <- Ours],
                 {said, "~b of ~b rounds with both up, nok received or sent at ~p ends", [Rounds, Rounds, noks(Counts)]}
         end).

is_ours({_, Kind}) -> is_ours(Kind);
is_ours(Kind) -> Kind =:= ours.

cross(A, B, Ours) ->
    Moment = erlang:system_time(nanosecond) + 10000000,
    Skew = (rand:uniform(9) - 5) * 50000,
    Self = self(),
    [spawn_link(fun() -> Self ! {X, c(X, test_agent, connect_at, [n(Y), At])} end) || {X, Y, At} <- [{A, B, Moment}, {B, A, Moment + Skew}]],
    [receive {X, true} -> ok after 30000 -> error({no_answer, n(X)}) end || X <- [A, B]],
    both_up(A, B),
    agreed(Ours),
    apart(A, B).

noks(Counts) ->
    lists:sum([maps:get(What, Map, 0) || Map <- Counts, What <- [{closed, 'StatusRefused'}, {closed, 'Crossed'}]]).

%% Four nodes connect and disconnect at random, and one of them is killed and comes back. When they rest, each pair agrees, the
%% tables of the node and of net_kernel are the same, and all can connect.
random_traffic() ->
    with([{"a", ours, ?QUIET}, {"b", ours, ?QUIET}, {"o", otp, ?QUIET}],
         fun([A, B, _] = Three) ->
                 Names = [n(X) || X <- Three] ++ ['d@127.0.0.1'],
                 Until = erlang:system_time(millisecond) + 8000,
                 Self = self(),
                 [spawn_link(fun() -> Self ! {X, c(X, test_agent, traffic, [Names -- [n(X)], Until])} end) || X <- Three],
                 {D, Kills} = killed_in_traffic([n(X) || X <- Three], Until, 0),
                 try
                     Actions = [receive {X, N} -> N after 30000 -> error({busy, n(X)}) end || X <- Three],
                     Four = Three ++ [D],
                     Pairs = [{X, Y} || X <- Four, Y <- Four, n(X) < n(Y)],
                     [settled(X, Y) || {X, Y} <- Pairs],
                     agreed([A, B, D]),
                     [begin true = connect(X, Y), both_up(X, Y) end || {X, Y} <- Pairs],
                     agreed([A, B, D]),
                     {said, "~b actions, ~b kills, given after a no of net_kernel or asked again: ~p",
                      [lists:sum(Actions), Kills, [maps:get(vetoed, c(X, distnode_core, counts, []), 0) || X <- [A, B]]]}
                 after test_nodes:stop(D)
                 end
         end).

killed_in_traffic(Names, Until, Kills) ->
    D = test_nodes:start("d", ours, ?QUIET),
    _ = c(D, test_agent, traffic, [Names, min(Until, erlang:system_time(millisecond) + 2000)]),
    case erlang:system_time(millisecond) >= Until of
        true -> {D, Kills};
        false ->
            test_nodes:kill(D),
            killed_in_traffic(Names, Until, Kills + 1)
    end.

kill_and_restart() ->
    with([{"a", ours, ?QUIET}],
         fun([A]) ->
                 First = restarted(A, test_nodes:start("b", ours, ?QUIET)),
                 Second = restarted(A, test_nodes:start("b", ours, ?QUIET)),
                 true = First =/= Second
         end).

%% A peer is shown no longer than the port or process is there that the emulator was given, which is what the core watches.
shown_as_long() ->
    with([{"a", ours, ?QUIET}, {"b", ours, ?QUIET}, {"o", otp, ?QUIET}],
         fun([A, B, O]) ->
                 [begin
                      true = connect(X, Y),
                      both_up(A, Other),
                      ok = c(A, test_agent, gone_with_its_controller, [n(Other)]),
                      {none} = settled(A, Other),
                      agreed([A])
                  end || _ <- lists:seq(1, 20), Other <- [B, O], {X, Y} <- [{A, Other}, {Other, A}]]
         end).

%% Two nodes that need not be of one release: pings and calls both ways, messages, one that is killed and comes back on either
%% side, and simultaneous dials.
between(KindA, KindB) ->
    with([{"a", KindA, ?QUIET}, {"b", KindB, ?QUIET}],
         fun([A, B]) ->
                 [begin
                      pong = c(X, net_adm, ping, [n(Y)]),
                      Name = n(Y),
                      Name = c(X, erpc, call, [Name, erlang, node, []]),
                      true = c(Y, test_agent, sink, []),
                      20000 = c(X, test_agent, flood, [Name, 20000])
                  end || {X, Y} <- [{A, B}, {B, A}]],
                 both_up(A, B),
                 agreed([X || {X, Kind} <- [{A, KindA}, {B, KindB}], is_ours(Kind)]),
                 comes_back(A, KindA, B, KindB)
         end),
    {said, Format, Arguments} = crossing(KindA, KindB, 20),
    {said, Format, Arguments}.

comes_back(A, KindA, B, KindB) ->
    ok = c(A, test_agent, watch, [n(B)]),
    test_nodes:kill(B),
    true = c(A, test_agent, is_down, [n(B)]),
    with([{"b", KindB, ?QUIET}],
         fun([Again]) ->
                 true = connect(Again, A),
                 both_up(A, Again),
                 apart(A, Again),
                 true = connect(A, Again),
                 ok = c(Again, test_agent, watch, [n(A)]),
                 test_nodes:kill(A),
                 true = c(Again, test_agent, is_down, [n(A)]),
                 with([{"a", KindA, ?QUIET}], fun([Third]) -> true = connect(Third, Again), both_up(Third, Again) end)
         end).

%% The creation of a node that is killed; the other notices, and a process of it is void.
restarted(A, B) ->
    pong = c(A, net_adm, ping, [n(B)]),
    Creation = c(B, erts_internal, get_creation, []),
    [{_, _, _, Creation, up, _}] = maps:get(up, c(A, distnode_core, table, [])),
    ok = c(A, test_agent, watch, [n(B)]),
    test_nodes:kill(B),
    true = c(A, test_agent, is_down, [n(B)]),
    agreed([A]),
    Creation.

%% The old connection of a peer dies without a word, and the peer comes back: it connects at once, and the old one is over.
frozen(KindA, KindB, Mapper) ->
    with([{"a", KindA, ["-epmd_module", "relay_epmd" | ?QUIET]}, {"b", KindB, ?QUIET}],
         fun([A, B]) ->
                 Relay = cut_off(A, B, Mapper),
                 again(A, KindA, test_nodes:start("b", KindB, ?QUIET)),
                 exit(Relay, kill)
         end).

%% a is connected to b by a relay, which then carries nothing more, and b is gone.
cut_off(A, B, Mapper) ->
    {Relay, Port} = other_side:relay(other_side:port_of("b", Mapper)),
    ok = c(A, relay_epmd, instead, ["b", Port]),
    true = connect(A, B),
    true = test_nodes:wait(fun() -> c(B, erlang, nodes, []) =:= [n(A)] end, 5000),
    ok = other_side:freeze(Relay),
    test_nodes:kill(B),
    Relay.

%% The peer comes back while its old connection is up, and the core does not know yet that the old socket is gone: the old end stays up
%% in the node so long, and the peer is not shown.
held(Mapper) ->
    with([{"a", ours, ["-epmd_module", "relay_epmd" | ?QUIET]}, {"b", ours, ?QUIET}],
         fun([A, B]) ->
                 Relay = cut_off(A, B, Mapper),
                 Old = c(A, test_agent, up_end, [n(B)]),
                 ok = c(A, sys, suspend, [distnode_core]),
                 with([{"b", ours, ?QUIET}],
                      fun([Again]) ->
                              _ = c(Again, erlang, spawn, [net_kernel, connect_node, [n(A)]]),
                              true = test_nodes:wait(fun() -> c(A, test_agent, is_held, [Old]) end, 5000),
                              true = test_nodes:wait(fun() -> c(A, erlang, nodes, []) =:= [] end, 5000),
                              Old = c(A, test_agent, up_end, [n(B)]),
                              ok = c(A, sys, resume, [distnode_core]),
                              true = test_nodes:wait(fun() -> c(A, erlang, nodes, []) =:= [n(B)] end, 5000),
                              both_up(A, Again),
                              agreed([A, Again]),
                              true = c(A, test_agent, up_end, [n(B)]) > Old,
                              false = is_map_key({closed, 'Replaced'}, c(A, distnode_core, counts, []))
                      end),
                 exit(Relay, kill)
         end).

again(A, KindA, B) ->
    try
        true = test_nodes:wait(fun() -> connect(B, A) end, 20000),
        both_up(A, B),
        [agreed([A]) || KindA =:= ours]
    after test_nodes:stop(B)
    end.

wrong_cookie() ->
    with([{"a", ours, ["-setcookie", "one" | ?QUIET]}, {"b", ours, ["-setcookie", "two" | ?QUIET]},
          {"o", otp, ["-setcookie", "two" | ?QUIET]}],
         fun([A, B, O] = All) ->
                 [false = connect(X, Y) || {X, Y} <- [{A, B}, {B, A}, {A, O}, {O, A}]],
                 [[] = c(X, erlang, nodes, []) || X <- All],
                 agreed([A, B]),
                 true = test_nodes:has_logged(A, "Connection attempt from node 'b@127.0.0.1' rejected. Invalid challenge reply"),
                 true = connect(B, O)
         end).

%% A cookie for one peer, and the one for all, while others are connected.
cookies_at_run_time() ->
    with([{"a", ours, ["-setcookie", "one" | ?QUIET]}, {"b", ours, ["-setcookie", "two" | ?QUIET]},
          {"o", otp, ["-setcookie", "three" | ?QUIET]}, {"p", otp, ["-setcookie", "one" | ?QUIET]}],
         fun([A, B, O, P]) ->
                 true = connect(P, A),
                 true = c(A, erlang, set_cookie, [n(B), two]),
                 true = connect(A, B),
                 apart(A, B),
                 true = connect(B, A),
                 %% p is connected under the cookie that a had for all
                 true = c(A, erlang, set_cookie, [three]),
                 true = connect(O, A),
                 apart(A, O),
                 true = connect(A, O),
                 [both_up(A, X) || X <- [B, O, P]],
                 apart(A, P),
                 false = connect(P, A),
                 false = connect(A, P),
                 true = c(P, erlang, set_cookie, [three]),
                 true = connect(A, P),
                 agreed([A, B])
         end).

%% What OTP takes and the library refuses ends the attempt with a report, and nothing else.
without_use() ->
    with([{"a", ours, ?QUIET}, {"b", ours, ?QUIET}, {"o", otp, ?QUIET}],
         fun([A, B, O]) ->
                 [begin
                      true = c(A, erlang, set_cookie, [n(O), Cookie]),
                      true = c(O, erlang, set_cookie, [n(A), Cookie]),
                      false = connect(A, O),
                      false = connect(O, A)
                  end || Cookie <- ['', 'a\nb', 'end ', list_to_atom([233])]],
                 true = test_nodes:has_logged(A, "the cookie for node 'o@127.0.0.1' can't be used: CookieEmpty"),
                 true = test_nodes:has_logged(A, "the cookie for node 'o@127.0.0.1' can't be used: CookieBadByte"),
                 [false = c(A, net_kernel, connect_node, [Name]) || Name <- ['a b@127.0.0.1', list_to_atom([233 | "@127.0.0.1"])]],
                 %% its own cookie, too: peers that have another connect
                 true = c(A, erlang, set_cookie, ['']),
                 true = c(A, erlang, set_cookie, [n(B), test]),
                 true = connect(A, B),
                 agreed([A, B])
         end).

%% A cookie that is changed right after dist_util has asked for it ends nobody, on either side: what was acknowledged stays up.
changed_meanwhile() ->
    with([{"a", ours, ?QUIET}, {"b", otp, ?QUIET}, {"d", ours, ?QUIET}],
         fun([A, B, D]) ->
                 [begin
                      ok = c(A, test_agent, change_cookie_once_asked, [n(Other), other]),
                      true = connect(X, Y),
                      both_up(X, Y),
                      other = c(A, erlang, get_cookie, [n(Other)]),
                      true = c(A, erlang, set_cookie, [n(Other), test]),
                      apart(A, Other)
                  end || Other <- [B, D], {X, Y} <- [{A, Other}, {Other, A}]],
                 agreed([A, D])
         end).

%% The cookie is changed while somebody holds a handshake open, who has shown none: the node takes the new one.
half_open(Mapper) ->
    with([{"a", ours, ?QUIET}, {"b", otp, ["-setcookie", "new" | ?QUIET]}],
         fun([A, B]) ->
                 Socket = stranger(other_side:port_of("a", Mapper), <<"half">>),
                 <<"ok">> = other_side:status(Socket),
                 _ = other_side:challenge(Socket),
                 true = c(A, erlang, set_cookie, [new]),
                 true = connect(B, A),
                 #{lent := 0} = c(A, distnode_core, table, []),
                 other_side:close(Socket),
                 agreed([A])
         end).

%% The cookie is changed while a peer stays connected. Then so many come, one after the other, and whoever knows the cookie connects.
after_a_change(Comes, N, Mapper) ->
    with([{"a", ours, ?QUIET}, {"b", otp, ?QUIET}, {"c", otp, ["-setcookie", "new" | ?QUIET]}, {"d", ours, ["-setcookie", "new" | ?QUIET]}],
         fun([A, B, C, D]) ->
                 true = connect(B, A),
                 true = c(A, erlang, set_cookie, [new]),
                 Port = other_side:port_of("a", Mapper),
                 [Comes(Port, integer_to_binary(I)) || I <- lists:seq(1, N)],
                 [begin true = connect(X, Y), both_up(X, Y) end || {X, Y} <- [{C, A}, {A, D}]],
                 both_up(A, B),
                 agreed([A, D]),
                 #{lent := 1} = c(A, distnode_core, table, []),
                 apart(A, B),
                 #{lent := 0} = c(A, distnode_core, table, []),
                 true = c(B, erlang, set_cookie, [new]),
                 true = connect(B, A),
                 agreed([A])
         end).

%% A stranger says a name, and knows no cookie.
said(Port, Name) ->
    Socket = stranger(Port, Name),
    <<"ok">> = other_side:status(Socket),
    other_side:close(Socket).

%% A node that knows the cookie comes, and goes.
came(Port, Name) -> other_side:close(comes_up(Port, Name, "new")).

comes_up(Port, Name, Cookie) ->
    Socket = stranger(Port, Name),
    <<"ok">> = other_side:status(Socket),
    ok = other_side:reply(Socket, Cookie, other_side:challenge(Socket)),
    ok = other_side:ack(Socket, Cookie),
    Socket.

%% More peers than the library keeps cookies have one of their own, and somebody without a cookie says all their names: who has been
%% lent one for the longest, and is not up, gives way.
all_lent() ->
    with([{"a", ours, ?QUIET}, {"b", otp, ?QUIET}, {"c", otp, ["-setcookie", "new" | ?QUIET]}, {"d", ours, ["-setcookie", "new" | ?QUIET]}],
         fun([A, B, C, D]) ->
                 true = connect(B, A),
                 [true = c(A, erlang, set_cookie, [Name, new])
                  || Name <- [n(C), n(D) | [list_to_atom("stranger" ++ integer_to_list(I) ++ "@127.0.0.1") || I <- lists:seq(1, 1100)]]],
                 true = connect(C, A),
                 1025 = c(A, test_agent, crowd, [1100, ?FLAGS]),
                 #{lent := 1024} = c(A, distnode_core, table, []),
                 true = connect(D, A),
                 [both_up(A, X) || X <- [B, C, D]],
                 Closed = c(A, test_agent, crowd_closed, []),
                 Closed = lists:seq(1, 1100 + 2 - 1024),
                 true = test_nodes:wait(fun() -> maps:get(lent, c(A, distnode_core, table, [])) =:= 2 end, 5000),
                 agreed([A, D])
         end).

%% What strangers say is their name stands in the log as OTP writes an atom: no byte of it acts on a terminal or begins a line.
names_in_the_log(Mapper) ->
    Names = [{"x\e[31mred\e]0;owned\007@h", "x\\e[31mred\\e]0;owned\\007@h'"},
             {"y@h **\r\n=ERROR REPORT==== forged ===\r\n** disk full **", "y@h **\\r\\n=ERROR REPORT==== forged ===\\r\\n** disk full **'"},
             {"z@h\0\d\2332J'~w", "z@h\\000\\d\\2332J\\'~w'"},
             {lists:append(lists:duplicate(10000, "n@h\e")), "n@h\\en@'.."}],
    with([{"a", ours, ?QUIET}, {"b", otp, ?QUIET}],
         fun([A, B]) ->
                 Port = other_side:port_of("a", Mapper),
                 Say = fun(First) ->
                               [begin
                                    Socket = other_side:connect(Port),
                                    ok = other_side:say_name(Socket, ?FLAGS, list_to_binary([First | Name])),
                                    _ = other_side:recv(Socket, 5000),
                                    other_side:close(Socket),
                                    true = test_nodes:has_logged(A, ["\\Q'", First, "\\E.*\\Q", Shown, "\\E"])
                                end || {Name, Shown} <- Names]
                       end,
                 Say($1),
                 true = connect(B, A),
                 ok = c(A, net_kernel, allow, [[n(B)]]),
                 Say($2),
                 true = c(A, erlang, set_cookie, [new]),
                 Say($3),
                 Log = test_nodes:log(A),
                 nomatch = re:run(Log, "[\\x00-\\x09\\x0b-\\x1f\\x7f-\\x9f]"),
                 nomatch = re:run(Log, "^=ERROR REPORT==== forged", [multiline])
         end).

%% OTP takes a name with a letter of Latin-1, and the library doesn't: the log says so, in words of its own.
beyond_ascii(Mapper) ->
    with([{"a", ours, ["-epmd_module", "relay_epmd" | ?QUIET]}],
         fun([A]) ->
                 Socket = other_side:connect(other_side:port_of("a", Mapper)),
                 ok = other_side:say_name(Socket, ?FLAGS, <<"e@b1", 16#E9>>),
                 <<"not_allowed">> = other_side:status(Socket),
                 other_side:close(Socket),
                 true = test_nodes:has_logged(A, "the name of node 'e@b1.*' has characters other than printable ASCII"),
                 nomatch = re:run(test_nodes:log(A), "disallowed"),
                 %% who dials logs it as one letter, here in UTF-8
                 ok = c(A, io, setopts, [user, [{encoding, unicode}]]),
                 ok = c(A, relay_epmd, instead, ["d", 1]),
                 false = connect_to(A, list_to_atom("d@b.1" ++ [16#E9])),
                 true = test_nodes:has_logged(A, "the name of node 'd@b.1\\xC3\\xA9' or of this node can't be used")
         end).

%% The emulator takes no peer with a dot before its @, and none with its own name: OTP's carrier logs the same, once for each attempt.
not_taken(Mapper) ->
    with([{"a", ours, ?QUIET}, {"o", otp, ?QUIET}],
         fun([A, O]) ->
                 Status = fun(Short, Name) ->
                                  Socket = other_side:connect(other_side:port_of(Short, Mapper)),
                                  ok = other_side:say_name(Socket, ?FLAGS, Name),
                                  Said = other_side:status(Socket),
                                  {error, closed} = other_side:recv(Socket, 5000),
                                  other_side:close(Socket),
                                  Said
                          end,
                 [begin
                      [true = lists:member(Status(Short, Name), [<<"nok">> | Also])
                       || {Name, Also} <- [{<<"my.app@127.0.0.1">>, []}, {atom_to_binary(n(X)), [<<"not_allowed">>]}]],
                      [begin
                           true = test_nodes:has_logged(X, ["Cannot get connection id for node '", Name, "'"]),
                           {match, [_]} = re:run(test_nodes:log(X), ["node '", Name], [global])
                       end || Name <- ["my.app@127.0.0.1", atom_to_list(n(X))]],
                      nomatch = re:run(test_nodes:log(X), "disallowed")
                  end || {Short, X} <- [{"o", O}, {"a", A}]],
                 agreed([A])
         end).

%% A peer of an earlier release lacks flags that this one requires. Who accepts and who dials log that in the words of OTP's carrier.
missing_flags(Mapper) ->
    Flags = ?FLAGS band bnot (?DFLAG_MANDATORY_25_DIGEST bor ?DFLAG_BIT_BINARIES bor ?DFLAG_MAP_TAG),
    with([{"a", ours, ["-epmd_module", "relay_epmd" | ?QUIET]}, {"o", otp, ["-epmd_module", "relay_epmd" | ?QUIET]}],
         fun([A, O]) ->
                 [begin
                      Named = other_side:connect(other_side:port_of(Short, Mapper)),
                      ok = other_side:say_name(Named, Flags, <<"p@127.0.0.1">>),
                      <<"not_allowed">> = other_side:status(Named),
                      other_side:close(Named),
                      {Pid, Port} = other_side:accepts(fun(Socket) ->
                                                               {ok, <<$N, _/binary>>} = other_side:recv(Socket, 5000),
                                                               ok = other_side:send(Socket, <<"sok">>),
                                                               ok = other_side:say_challenge(Socket, Flags, <<"q@127.0.0.1">>),
                                                               {error, closed} = other_side:recv(Socket, 5000)
                                                       end),
                      ok = c(X, relay_epmd, instead, ["q", Port]),
                      false = connect_to(X, 'q@127.0.0.1'),
                      exit(Pid, kill),
                      [true = test_nodes:has_logged(X, ["\\*\\* '", Short, "@127.0.0.1': Connection attempt ", Way, " since it cannot handle "
                                                        "\\[\"MAP_TAG\",\\s*\"BIT_BINARIES\"]\\."])
                       || Way <- ["from node 'p@127.0.0.1' rejected", "to node 'q@127.0.0.1' aborted"]],
                      nomatch = re:run(test_nodes:log(X), "disallowed")
                  end || {Short, X} <- [{"o", O}, {"a", A}]],
                 agreed([A])
         end).

%% The distribution begins and ends at run time, more than once, and under another name too.
started_at_run_time() ->
    with([{"r", {later, ours}, ?QUIET}, {"b", ours, ?QUIET}, {"o", otp, ?QUIET}],
         fun([R, B, O]) ->
                 undefined = c(R, erlang, whereis, [distnode_core]),
                 [begin
                      {ok, _} = c(R, net_kernel, start, [[Name, longnames]]),
                      true = connect(R, B),
                      true = connect_to(O, Name),
                      [Name = c(X, erpc, call, [Name, erlang, node, []]) || X <- [B, O]],
                      agreed([R, B]),
                      ok = c(R, net_kernel, stop, []),
                      undefined = c(R, erlang, whereis, [distnode_core]),
                      [true = test_nodes:wait(fun() -> c(X, erlang, nodes, []) =:= [] end, 5000) || X <- [B, O]],
                      agreed([B])
                  end || Name <- ['r@127.0.0.1', 's@127.0.0.1', 'r@127.0.0.1']]
         end).

allow_list() ->
    with([{"a", ours, ?QUIET}, {"b", ours, ?QUIET}, {"c", ours, ?QUIET}, {"o", otp, ?QUIET}],
         fun([A, B, C, O]) ->
                 true = connect(O, A),
                 ok = c(A, net_kernel, allow, [[n(B)]]),
                 true = connect(B, A),
                 false = connect(C, A),
                 true = test_nodes:has_logged(A, "disallowed node 'c@127.0.0.1'"),
                 both_up(A, O),
                 apart(A, O),
                 false = connect(O, A),
                 %% a part of a name, as dist_util has it
                 ok = c(A, net_kernel, allow, [['c@', n(O)]]),
                 true = connect(C, A),
                 true = connect(O, A),
                 agreed([A, B, C])
         end).

%% While net_kernel says nothing, a peer that has shown the cookie hears no acknowledgement and is not up in the node.
veto(Mapper) ->
    with([{"a", ours, ?QUIET}],
         fun([A]) ->
                 Socket = other_side:connect(other_side:port_of("a", Mapper)),
                 ok = other_side:say_name(Socket, ?FLAGS, <<"x@127.0.0.1">>),
                 <<"ok">> = other_side:status(Socket),
                 Challenge = other_side:challenge(Socket),
                 ok = c(A, sys, suspend, [net_kernel]),
                 ok = other_side:reply(Socket, "test", Challenge),
                 true = test_nodes:wait(fun() -> c(A, test_agent, is_asked, ['x@127.0.0.1']) end, 5000),
                 #{up := [], open := 1} = c(A, distnode_core, table, []),
                 true = other_side:is_silent(Socket, 200),
                 ok = c(A, sys, resume, [net_kernel]),
                 ok = other_side:ack(Socket, "test"),
                 true = test_nodes:wait(fun() -> c(A, erlang, nodes, []) =:= ['x@127.0.0.1'] end, 5000),
                 agreed([A]),
                 other_side:close(Socket),
                 true = test_nodes:wait(fun() -> c(A, erlang, nodes, []) =:= [] end, 5000),
                 agreed([A])
         end).

hidden() ->
    with([{"h", ours, ["-hidden" | ?QUIET]}, {"a", ours, ?QUIET}, {"o", otp, ?QUIET}, {"g", otp, ["-hidden" | ?QUIET]}],
         fun([H, A, O, G]) ->
                 [true = connect(X, Y) || {X, Y} <- [{H, A}, {O, H}, {A, G}, {A, O}]],
                 [both_up(X, Y) || {X, Y} <- [{H, A}, {O, H}, {A, G}, {A, O}]],
                 Seen = fun(X) -> {lists:sort(c(X, erlang, nodes, [])), lists:sort(c(X, erlang, nodes, [hidden]))} end,
                 {[], [_, _]} = Seen(H),
                 {['o@127.0.0.1'], ['g@127.0.0.1', 'h@127.0.0.1']} = Seen(A),
                 {['a@127.0.0.1'], ['h@127.0.0.1']} = Seen(O),
                 apart(A, O),
                 false = c(A, net_kernel, hidden_connect_node, [n(O)]),
                 agreed([H, A])
         end).

%% The nodes of a hidden global group are shown to one another. A node here is shown to all of its peers or to none, so it refuses those
%% outside of the group, to which OTP's carrier hides it, and says why.
hidden_group() ->
    Group = ["-kernel", "global_groups", "[{g,hidden,['a@127.0.0.1','b@127.0.0.1','p@127.0.0.1']}]" | ?QUIET],
    with([{"a", ours, Group}, {"b", ours, Group}, {"p", otp, Group}, {"c", ours, ?QUIET}, {"o", otp, ?QUIET}],
         fun([A, B, P | Outside]) ->
                 [begin true = connect(X, Y), both_up(X, Y) end || {X, Y} <- [{A, B}, {P, A}, {B, P}]],
                 [[_, _] = c(X, erlang, nodes, []) || X <- [A, B, P]],
                 [begin
                      [false = connect(X, Y) || {X, Y} <- [{A, Other}, {Other, A}]],
                      true = test_nodes:has_logged(A, ["node '", atom_to_list(n(Other)), "' is outside of the hidden global group"])
                  end || Other <- Outside],
                 agreed([A, B, hd(Outside)])
         end).

%% Nodes that are given their names by the first one that they dial, as erl -remsh starts them.
nameless() ->
    with([{"a", ours, ?QUIET}, {"o", otp, ?QUIET}, {"undefined", ours, ?QUIET}, {"undefined", otp, ?QUIET}],
         fun([A, O, D, E]) ->
                 [begin
                      true = connect(X, First),
                      Given = c(X, erlang, node, []),
                      Given = c(First, rpc, call, [Given, erlang, node, []]),
                      true = connect(X, Second),
                      Given = c(Second, rpc, call, [Given, erlang, node, []])
                  end || {X, First, Second} <- [{D, A, O}, {E, A, O}]],
                 true = connect(A, O),
                 agreed([A])
         end).

%% Hosts that have names: of several parts, or of one. A node of either kind refuses a peer of the other, and says so as OTP does.
named_hosts(Length) ->
    with([{"a", {Length, ours}, ?QUIET}, {"b", {Length, ours}, ?QUIET}, {"o", {Length, otp}, ?QUIET}],
         fun([A, B, O]) ->
                 [true = connect(X, Y) || {X, Y} <- [{A, B}, {O, A}, {B, O}]],
                 [both_up(X, Y) || {X, Y} <- [{A, B}, {A, O}, {B, O}]],
                 {Other, Text} = case Length of
                                     long -> {'c@one', "System running to use fully qualified hostnames"};
                                     short -> {'c@one.example.test', "System NOT running to use fully qualified hostnames"}
                                 end,
                 [begin
                      false = connect_to(X, Other),
                      true = test_nodes:has_logged(X, Text)
                  end || X <- [A, O]],
                 agreed([A, B])
         end).

connect_to(A, Name) -> c(A, net_kernel, connect_node, [Name]).

%% With check_ip only peers of this host's own networks are let in. An address of no such network is there only where somebody has
%% given one to the loopback, as `ip address add 192.0.2.1/32 dev lo` does in a network of its own.
own_networks() ->
    Check = ["-kernel", "check_ip", "true" | ?QUIET],
    with([{"a", ours, Check}, {"b", ours, Check}, {"o", otp, ?QUIET}],
         fun([A, B, O]) ->
                 [begin true = connect(X, Y), both_up(X, Y) end || {X, Y} <- [{A, B}, {O, A}, {B, O}]],
                 agreed([A, B]),
                 apart(O, A),
                 ok = c(O, application, set_env, [kernel, inet_dist_connect_options, [{ip, {192, 0, 2, 1}}]]),
                 false = connect(O, A),
                 case c(O, gen_tcp, listen, [0, [{ip, {192, 0, 2, 1}}]]) of
                     {ok, _} ->
                         true = test_nodes:has_logged(A, "Connection attempt from disallowed IP {192,0,2,1}"),
                         agreed([A, B]),
                         {said, "a peer of another network is refused", []};
                     {error, eaddrnotavail} -> {said, "no address of another network is here, so none was refused", []}
                 end
         end).

global_names() ->
    with([{"a", ours, []}, {"b", ours, []}, {"o", otp, []}],
         fun([A, B, O] = All) ->
                 pong = c(A, net_adm, ping, [n(B)]),
                 pong = c(B, net_adm, ping, [n(O)]),
                 %% global makes the third connection
                 true = test_nodes:wait(fun() -> [length(c(X, erlang, nodes, [])) || X <- All] =:= [2, 2, 2] end, 10000),
                 Pid = c(A, erlang, whereis, [net_kernel]),
                 yes = c(A, global, register_name, [thing, Pid]),
                 [true = test_nodes:wait(fun() -> c(X, global, whereis_name, [thing]) =:= Pid end, 10000) || X <- [B, O]],
                 agreed([A, B]),
                 test_nodes:kill(O),
                 true = test_nodes:wait(fun() -> length(c(A, erlang, nodes, [])) =:= 1 end, 10000),
                 agreed([A, B])
         end).

%% Without a message the connections stay up by ticks, and a node that stands still is noticed.
ticks() ->
    Tick = ["-kernel", "net_ticktime", "2" | ?QUIET],
    with([{"a", ours, Tick}, {"b", ours, Tick}, {"o", otp, Tick}],
         fun([A, B, O]) ->
                 true = connect(A, B),
                 true = connect(O, A),
                 [true = c(X, test_agent, stay_up, [n(Y), 4]) || {X, Y} <- [{A, B}, {B, A}, {A, O}]],
                 ok = test_nodes:signal(B, "STOP"),
                 try true = test_nodes:wait(fun() -> c(A, erlang, nodes, []) =:= [n(O)] end, 10000)
                 after test_nodes:signal(B, "CONT")
                 end,
                 %% b may still count its old connection as up when it goes on
                 true = test_nodes:wait(fun() -> connect(B, A) andalso element(1, settled(A, B)) =:= up end, 10000),
                 agreed([A, B])
         end).

%% Connections without a byte, which have no end of the node, and others that say names and know no cookie, all of them held. A
%% first connection of each kind has the code loaded, which makes atoms of its own.
strangers(Mapper) ->
    with([{"a", ours, ?QUIET}, {"b", ours, ?QUIET}, {"o", otp, ?QUIET}],
         fun([A, B, O]) ->
                 Port = other_side:port_of("a", Mapper),
                 [begin true = connect(X, Y), both_up(X, Y), apart(X, Y) end || {X, Y} <- [{O, A}, {A, B}]],
                 other_side:close(stranger(Port, <<"first">>)),
                 true = test_nodes:wait(fun() -> maps:get(open, c(A, distnode_core, table, [])) =:= 0 end, 5000),
                 Atoms = c(A, erlang, system_info, [atom_count]),
                 Many = case test_nodes:is_tls() of false -> 200; true -> 40 end,
                 Silent = [other_side:connect(Port) || _ <- lists:seq(1, Many)],
                 Named = [stranger(Port, integer_to_binary(I)) || I <- lists:seq(1, Many)],
                 [<<"ok">> = other_side:status(Socket) || Socket <- Named],
                 #{open := Many} = c(A, distnode_core, table, []),
                 true = connect(O, A),
                 true = connect(A, B),
                 [other_side:close(Socket) || Socket <- Silent ++ Named],
                 agreed([A, B]),
                 true = c(A, erlang, system_info, [atom_count]) - Atoms < 20
         end).

%% A stranger takes the last descriptor of a node before its first peer comes: by then it has loaded what a connection needs, and the
%% stranger hears what it would hear at any time.
last_descriptor(Mapper) ->
    with([{"a", {limited, ours}, ?QUIET}, {"b", ours, ?QUIET}, {"o", otp, ?QUIET}],
         fun([A, B, O]) ->
                 Port = other_side:port_of("a", Mapper),
                 ok = c(A, test_agent, take_descriptors, [1]),
                 Socket = stranger(Port, <<"last">>),
                 <<"ok">> = other_side:status(Socket),
                 ok = c(A, test_agent, give_descriptors, []),
                 other_side:close(Socket),
                 [begin true = connect(X, Y), both_up(X, Y), apart(X, Y) end || {X, Y} <- [{B, A}, {O, A}, {A, B}]],
                 agreed([A, B]),
                 nomatch = re:run(test_nodes:log(A), "undef|Error in process")
         end).

stranger(Port, Name) ->
    Socket = other_side:connect(Port),
    ok = other_side:say_name(Socket, ?FLAGS, <<"stranger", Name/binary, "@127.0.0.1">>),
    Socket.

%% Somebody without the cookie holds a handshake in a peer's name; the peer connects all the same.
impostor(Mapper) ->
    with([{"a", ours, ?QUIET}, {"b", ours, ?QUIET}, {"o", otp, ?QUIET}],
         fun([A, B, O]) ->
                 Port = other_side:port_of("a", Mapper),
                 [begin
                      Socket = other_side:connect(Port),
                      ok = other_side:say_name(Socket, ?FLAGS, atom_to_binary(n(X))),
                      <<"ok">> = other_side:status(Socket),
                      true = connect(X, A),
                      both_up(A, X)
                  end || X <- [B, O]],
                 agreed([A, B])
         end).

%% A node whose numbers are used up closes its connections and begins anew. It doesn't take a connection that was made before, nor the one
%% that comes next: that may have been made before, too.
numbers_run_out(Mapper) ->
    with([{"a", ours, ["-kernel", "distnode_most_ends", "6" | ?QUIET]}, {"b", ours, ?QUIET}, {"o", otp, ?QUIET}],
         fun([A, B, O]) ->
                 true = connect(B, A),
                 Before = [other_side:connect(other_side:port_of("a", Mapper)) || _ <- [1, 2, 3]],
                 apart(A, B),
                 Answers = [begin
                                Answer = connect(X, Y),
                                [apart(X, Y) || Answer],
                                Answer
                            end || _ <- lists:seq(1, 6), {X, Y} <- [{A, B}, {B, A}, {A, O}, {O, A}]],
                 Times = maps:get(spent, c(A, distnode_core, counts, [])),
                 true = Times >= 2,
                 true = length([no || false <- Answers]) =< 2 * Times,
                 [begin
                      ok = other_side:say_name(Socket, ?FLAGS, <<"before@127.0.0.1">>),
                      {error, closed} = other_side:recv(Socket, 5000)
                  end || Socket <- Before],
                 agreed([B]),
                 true = test_nodes:wait(fun() -> connect(B, A) end, 5000),
                 apart(A, B),
                 true = test_nodes:wait(fun() -> connect(A, B) end, 5000),
                 agreed([A, B]),
                 {said, "begun anew ~b times in ~b attempts", [Times, length(Answers)]}
         end).

%% ---- over TLS alone

options(Name) -> ["-ssl_dist_optfile", test_certificates:options(Name) | ?QUIET].

%% A certificate of an authority that the other node doesn't trust: refused by who accepts and by who dials.
untrusted() ->
    with([{"a", ours, ?QUIET}, {"b", ours, ?QUIET}, {"u", ours, options("untrusted")}, {"v", otp, options("untrusted")}],
         fun([A, B, U, V]) ->
                 [false = connect(X, Y) || Other <- [U, V], {X, Y} <- [{A, Other}, {Other, A}]],
                 [[] = c(X, erlang, nodes, []) || X <- [A, U, V]],
                 agreed([A, U]),
                 true = connect(A, B),
                 agreed([A, B])
         end).

%% A trusted certificate, but of another host than the one in the node's name: who dials refuses it, and who accepts does where it has an
%% allow list, by verify_client of inet_tls_dist, or without that by the name that is said.
elsewhere() ->
    Flags = lists:append([["-ssl_dist_opt", Side ++ Name, Value] || Side <- ["server_", "client_"], {Name, Value} <- flags("node")]),
    with([{"a", ours, ?QUIET}, {"d", ours, Flags ++ ["-ssl_dist_opt", "server_fail_if_no_peer_cert", "true" | ?QUIET]}, {"b", ours, ?QUIET},
          {"e", ours, options("elsewhere")}, {"f", otp, options("elsewhere")}],
         fun([A, D, B | Elsewhere]) ->
                 [begin
                      [false = connect(X, E) || E <- Elsewhere],
                      [begin true = connect(E, X), both_up(E, X), apart(E, X) end || E <- Elsewhere],
                      ok = c(X, net_kernel, allow, [[n(Y) || Y <- [B | Elsewhere]]]),
                      [false = connect(E, X) || E <- Elsewhere],
                      true = connect(B, X),
                      apart(B, X),
                      true = connect(X, B),
                      agreed([X, B])
                  end || X <- [A, D]],
                 true = test_nodes:has_logged(D, "Connection attempt from disallowed node 'e@127.0.0.1'")
         end).

flags(Name) ->
    [{atom_to_list(Key), case Value of [_ | _] -> Value; _ -> atom_to_list(Value) end} || {Key, Value} <- test_certificates:client(Name)].

%% Connections without TLS at a port for TLS: some say nothing, some a name as over TCP. None has an end of the node, and peers connect.
%% One with TLS says a length that no frame of the handshake has.
plain_strangers(Mapper) ->
    with([{"a", ours, ?QUIET}, {"b", ours, ?QUIET}, {"o", otp, ?QUIET}],
         fun([A, B, O]) ->
                 Port = other_side:port_of("a", Mapper),
                 Silent = [with_tls("0", fun() -> other_side:connect(Port) end) || _ <- lists:seq(1, 50)],
                 Named = [with_tls("0", fun() -> stranger(Port, integer_to_binary(I)) end) || I <- lists:seq(1, 50)],
                 [{error, _} = other_side:recv(Socket, 5000) || Socket <- Named],
                 Long = other_side:connect(Port),
                 ok = ssl:setopts(Long, [{packet, raw}]),
                 ok = other_side:send(Long, <<65536:32>>),
                 {error, closed} = other_side:recv(Long, 5000),
                 #{open := 0} = c(A, distnode_core, table, []),
                 [begin true = connect(X, Y), both_up(X, Y) end || {X, Y} <- [{B, A}, {A, O}]],
                 [other_side:close(Socket) || Socket <- Silent ++ Named],
                 agreed([A, B])
         end).

%% Nodes over TLS and nodes over TCP don't connect, and are free for others afterwards.
tls_and_tcp() ->
    Soon = ["-kernel", "net_setuptime", "2" | ?QUIET],
    with([{"a", ours, Soon}, {"b", ours, Soon}],
         fun([A, B]) ->
                 with_tls("0", fun() ->
                                      with([{"t", ours, Soon}, {"o", otp, Soon}],
                                           fun([T, O]) ->
                                                   [false = connect(X, Y) || {X, Y} <- [{A, T}, {T, A}, {A, O}, {O, A}]],
                                                   true = connect(O, T),
                                                   agreed([A, T])
                                           end)
                              end),
                 true = connect(A, B),
                 agreed([A, B])
         end).

%% The application in a boot script, and code in embedded mode: the distribution starts before init runs what -on_load names.
embedded_release() ->
    Folder = filename:join(os:getenv("LOGS"), "release"),
    Lib = filename:join([Folder, "lib", "distnode-0.2.0"]),
    ok = copy_parts(["ebin", "priv"], Lib),
    Tls = [App || test_nodes:is_tls(), App <- [crypto, asn1, public_key, ssl]],
    Applications = [{App, version(App)} || App <- [kernel, stdlib | Tls]] ++ [{distnode, "0.2.0"}],
    Release = {release, {"test", "1"}, {erts, erlang:system_info(version)}, Applications},
    ok = file:write_file(filename:join(Folder, "test.rel"), io_lib:format("~p.~n", [Release])),
    ok = systools:make_script(filename:join(Folder, "test"), [no_warn_sasl, {path, [filename:join(Lib, "ebin")]}, {outdir, Folder}, local]),
    Boot = ["-boot", filename:join(Folder, "test"), "-mode", "embedded" | ?QUIET],
    with([{"a", release, Boot}, {"b", release, Boot}, {"o", otp, ?QUIET}],
         fun([A, B, O]) ->
                 embedded = c(A, code, get_mode, []),
                 [true = connect(X, Y) || {X, Y} <- [{A, B}, {O, A}, {B, O}]],
                 [both_up(X, Y) || {X, Y} <- [{A, B}, {A, O}, {B, O}]],
                 true = lists:prefix(Lib, c(A, code, which, [distnode_nif])),
                 agreed([A, B])
         end).

version(App) ->
    _ = application:load(App),
    {ok, Version} = application:get_key(App, vsn),
    Version.

copy_parts(Parts, To) ->
    [ok = copy(filename:join([os:getenv("EBIN"), "..", Part]), filename:join(To, Part)) || Part <- Parts],
    ok.

copy(From, To) ->
    ok = filelib:ensure_dir(filename:join(To, "x")),
    [{ok, _} = file:copy(File, filename:join(To, filename:basename(File))) || File <- filelib:wildcard(filename:join(From, "*"))],
    ok.

%% The distribution ends with the node's owner, and the emulator with the distribution, as where net_kernel is killed.
killed_core() ->
    with([{"b", ours, ?QUIET}],
         fun([B]) ->
                 [begin
                      A = test_nodes:start("a", Kind, ?QUIET),
                      true = connect(A, B),
                      Pid = c(A, erlang, whereis, [Victim]),
                      try c(A, erlang, exit, [Pid, kill]) catch error:_ -> gone end,
                      Status = test_nodes:ended(A, 20000),
                      true = is_integer(Status),
                      true = test_nodes:wait(fun() -> c(B, erlang, nodes, []) =:= [] end, 5000)
                  end || {Kind, Victim} <- [{ours, distnode_core}, {otp, net_kernel}]],
                 agreed([B])
         end).

%% A recording is a regular file: a FIFO that nobody reads would hold the emulator up. It has cookies, so it is no file that others can
%% read, have given another name, or have put a link to in its place. The node starts without a recording.
recording_elsewhere() ->
    [Fifo, Open, Twice, Other, Link] =
        Files = [filename:join(os:getenv("LOGS"), Name) || Name <- ["fifo", "open", "twice", "other", "link"]],
    "" = os:cmd("mkfifo " ++ Fifo),
    [ok = file:write_file(File, "") || File <- [Open, Twice]],
    [ok = file:change_mode(File, Mode) || {File, Mode} <- [{Open, 8#644}, {Twice, 8#600}]],
    ok = file:make_link(Twice, Other),
    ok = file:make_symlink("nowhere", Link),
    Places = lists:zip(["a", "b", "c", "d", "e"], ["/dev/null" | Files -- [Other]]),
    with([{Short, ours, ["-kernel", "distnode_recording", [$", File, $"] | ?QUIET]} || {Short, File} <- Places],
         fun([A, B | _] = Nodes) ->
                 [true = test_nodes:has_logged(X, ["nothing is recorded, since ", File, " is no regular file"])
                  || {X, {_, File}} <- lists:zip(Nodes, Places)],
                 true = connect(A, B),
                 agreed([A, B]),
                 [] = [File || File <- [Open, Twice, filename:join(filename:dirname(Link), "nowhere")], filelib:file_size(File) > 0]
         end).

%% The library's module is loaded anew from other folders while a peer is connected: one calls load/0, one leaves that to its first call;
%% one has no library, and one has a library of another layout, which are refused. At last the node is dropped, and another begins.
library_at_run_time() ->
    Recording = filename:join(os:getenv("LOGS"), "library.recording"),
    with([{"r", {later, ours}, ["-kernel", "distnode_recording", [$", Recording, $"] | ?QUIET]}, {"b", ours, ?QUIET}, {"o", otp, ?QUIET}],
         fun([R, B, O] = All) ->
                 {ok, _} = c(R, net_kernel, start, [[n(R), longnames]]),
                 true = connect(R, B),
                 Anew = fun(Folder, Kept, Load) -> loaded_anew(Folder, Kept, Load, Recording, All) end,
                 Anew(folder("first", ["ebin", "priv"]), "first", fun() -> ok = c(R, distnode_nif, load, []) end),
                 Anew(folder("second", ["ebin", "priv"]), "second", fun() -> true = connect(O, R) end),
                 Anew(folder("third", ["ebin"]), "second", fun() -> refused(R, "Failed to load NIF library") end),
                 Said = with_tools(fun() -> Anew(other_layout("fourth"), "second", fun() -> refused(R, "unsuccessful (3)") end) end),
                 ok = c(R, net_kernel, stop, []),
                 {ok, _} = c(R, net_kernel, start, [[n(R), longnames]]),
                 true = connect(B, R),
                 agreed([R, B]),
                 Said
         end).

%% The peer stays connected on its end, messages pass, ends come and go and are recorded, and nobody runs in the old code when it is purged.
loaded_anew(Folder, Kept, Load, Recording, [R, B, O]) ->
    {Up, Before} = {c(R, test_agent, up_end, [n(B)]), lines(Recording)},
    {module, distnode_nif} = c(R, code, load_abs, [filename:join([Folder, "ebin", "distnode_nif"])]),
    Load(),
    Up = c(R, test_agent, up_end, [n(B)]),
    [Name = c(X, erpc, call, [Name, erlang, node, []]) || {X, Name} <- [{R, n(B)}, {B, n(R)}]],
    false = c(R, code, purge, [distnode_nif]),
    true = test_nodes:wait(fun() -> lists:member(c(R, test_agent, libraries, []), [[Kept], unknown]) end, 5000),
    [begin true = connect(X, Y), both_up(X, Y), apart(X, Y) end || {X, Y} <- [{O, R}, {R, B}, {B, R}]],
    true = connect(R, B),
    agreed([R, B]),
    true = lines(Recording) > Before.

lines(Recording) ->
    {ok, Lines} = distnode_recording:read(Recording),
    length(Lines).

refused(R, Why) ->
    {refused, Text} = c(R, distnode_nif, load, []),
    true = string:find(Text, Why) =/= nomatch,
    true = test_nodes:has_logged(R, ["the new library is refused, so .*/second/.*/distnode_nif.so stays: .*\\Q", Why, "\\E"]).

folder(Name, Parts) ->
    Folder = filename:join(os:getenv("LOGS"), Name),
    ok = copy_parts(Parts, Folder),
    Folder.

other_layout(Name) ->
    Folder = folder(Name, ["ebin"]),
    ok = copy_sources(Folder),
    {0, _} = make(Folder, os:getenv("LIBRARY"), ["CFLAGS=-DDISTNODE_LAYOUT=0"]),
    Folder.

%% The library is missing, is one for another machine (the number of the machine is byte 18 of an ELF file), or is cut short.
unfit_library() ->
    {ok, Library} = file:read_file(filename:join([os:getenv("EBIN"), "..", "priv", "distnode_nif.so"])),
    <<Head:18/binary, Machine, Rest/binary>> = Library,
    [begin
         Alone = filename:join([os:getenv("LOGS"), "alone", Short, "ebin"]),
         ok = copy(os:getenv("EBIN"), Alone),
         [begin
              File = filename:join([Alone, "..", "priv", "distnode_nif.so"]),
              ok = filelib:ensure_dir(File),
              ok = file:write_file(File, Bytes)
          end || Bytes =/= none],
         Node = test_nodes:start_bare(Short, Alone, []),
         Status = test_nodes:ended(Node, 30000),
         true = is_integer(Status) andalso Status =/= 0,
         true = test_nodes:has_logged(Node, "distnode: the library distnode_nif can't be loaded")
     end || {Short, Bytes} <- [{"a", none}, {"b", <<Head/binary, (Machine bxor 16#ff), Rest/binary>>}, {"c", Head}]],
    ok.

%% make refuses a library of another version, a folder without an archive, and an archive for another machine. It makes the module anew
%% where the header is another one, although that is the older file.
unfit_archive() ->
    with_tools(fun() -> unfit_archive(filename:join(os:getenv("LOGS"), "build")) end).

with_tools(Body) ->
    case [Tool || Tool <- ["make", "cc"], os:find_executable(Tool) =:= false] of
        [] -> Body();
        Missing -> {said, "~p missing here, so nothing was made", [Missing]}
    end.

unfit_archive(Build) ->
    Library = filename:join(os:getenv("LOGS"), "library"),
    Header = filename:join([Library, "include", "distnode.h"]),
    Archive = filename:join([Library, "lib", "libdistnode.a"]),
    Module = filename:join([Build, "priv", "distnode_nif.so"]),
    ok = copy_sources(Build),
    ok = copy(filename:join(os:getenv("LIBRARY"), "include"), filename:dirname(Header)),
    {ok, Head} = file:read_file(Header),
    refuses(Build, Library, Module, "no libdistnode.a in "),
    [From | _] = filelib:wildcard(filename:join(os:getenv("LIBRARY"), "lib/**/libdistnode.a")),
    {ok, Bytes} = file:read_file(From),
    ok = filelib:ensure_dir(Archive),
    ok = file:write_file(Archive, lists:foldl(fun({At, _}, Now) -> of_another_machine(At, Now) end, Bytes, binary:matches(Bytes, <<16#7f, "ELF">>))),
    refuses(Build, Library, Module, "libdistnode.a"),
    ok = file:write_file(Archive, Bytes),
    ok = file:write_file(Header, string:replace(Head, "#define DN_VERSION \"0.2.0\"", "#define DN_VERSION \"other\"")),
    refuses(Build, Library, Module, "is of version other, and this application wants 0.2.0"),
    ok = file:write_file(Header, Head),
    {0, _} = make(Build, Library),
    First = made_at(Module),
    {0, _} = make(Build, Library),
    First = made_at(Module),
    ok = file:write_file(Header, [Head, "/* other */\n"]),
    ok = file:change_time(Header, {{2020, 1, 1}, {0, 0, 0}}),
    {0, _} = make(Build, Library),
    true = First =/= made_at(Module).

copy_sources(To) ->
    ok = copy_parts(["src", "c_src"], To),
    {ok, _} = file:copy(filename:join([os:getenv("EBIN"), "..", "Makefile"]), filename:join(To, "Makefile")),
    ok.

of_another_machine(At, Bytes) ->
    <<Before:(At + 18)/binary, Machine, Rest/binary>> = Bytes,
    <<Before/binary, (Machine bxor 16#ff), Rest/binary>>.

refuses(Build, Library, Module, Text) ->
    {Status, Said} = make(Build, Library),
    true = Status =/= 0 andalso string:find(Said, Text) =/= nomatch andalso not filelib:is_file(Module).

make(Build, Library) -> make(Build, Library, []).

make(Build, Library, Words) ->
    Port = open_port({spawn_executable, os:find_executable("make")},
                     [{args, ["-s", "-C", Build, "nif", "DISTNODE=" ++ Library | Words]}, exit_status, stderr_to_stdout]),
    made(Port, []).

made(Port, Said) ->
    receive
        {Port, {data, More}} -> made(Port, [Said, More]);
        {Port, {exit_status, Status}} -> {Status, lists:flatten(Said)}
    end.

%% To the nanosecond.
made_at(File) -> os:cmd("stat -c %y " ++ File).
