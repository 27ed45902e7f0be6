%% SPDX-License-Identifier: Apache-2.0
%% A rolling upgrade. Four emulators with the carrier act at random (audit). Each in turn is killed and begins again as one of the next
%% release, the installed one first and then those of the folders that ROOTS names; without such folders as a hidden node, and then as a
%% shown one again, so with other flags. After each of them all four connect, call one another and agree. Their recordings are audited as
%% one world, in which a node begins again with another setup, and changed recordings are refused. The strangers of an audited run are there,
%% too.
-module(upgrade).
-export([main/0, main/1]).

%% ACTIONS [SEED]: so many random actions before each emulator that is killed, and as many behind it.
main() -> main(["30"]).
main([Actions]) -> main([Actions, integer_to_list(erlang:system_time(microsecond) rem 1000000)]);
main([Actions, Seed]) ->
    {_, OsPid} = test_nodes:port_mapper(),
    _ = rand:seed(exsss, list_to_integer(Seed)),
    io:format("seed ~s~n", [Seed]),
    Holds = try upgrade(list_to_integer(Actions))
            catch Class:Why:Stack -> io:format("FAILED: ~p~n", [{Class, Why, Stack}])
            end,
    os:cmd("kill " ++ integer_to_list(OsPid)),
    halt(case Holds of true -> 0; _ -> 1 end).

upgrade(Actions) ->
    [{Kind, Arguments} | Later] = releases(string:lexemes(os:getenv("ROOTS", ""), " ")),
    Begun = [{Name, audit:emulator(Name, Kind, Arguments)} || Name <- audit:names()],
    Strangers = audit:strangers(),
    Nodes = lists:foldl(fun(Release, Now) -> replace_all(Release, Actions, Now) end, Begun, Later),
    audit:leave(Strangers),
    audit:made_alike([Node || {_, Node} <- Nodes]),
    audit:all_connect([Node || {_, Node} <- Nodes]),
    Shown = [{Name, audit:shown(Node)} || {Name, Node} <- Nodes],
    Recordings = [{Name, audit:recording(Name)} || Name <- audit:names()],
    [test_nodes:kill(Node) || {_, Node} <- Nodes],
    Holds = audit:audit(Recordings, Shown),
    io:format("~ts~n", [audit:said(Holds)]),
    Refused = [audit:is_refused(Change, Recordings, Shown) || element(1, Holds) =:= holds, Change <- [repeated, dropped, swapped]],
    io:format("~b of ~b changed recordings refused~n", [length([yes || true <- Refused]), length(Refused)]),
    element(1, Holds) =:= holds andalso lists:all(fun(IsRefused) -> IsRefused end, Refused).

releases([]) -> [{ours, []}, {ours, ["-hidden"]}, {ours, []}];
releases(Roots) -> [{ours, []} | [{{Root, ours}, []} || Root <- Roots]].

replace_all(Release, Actions, Nodes) -> lists:foldl(fun(Name, Now) -> replace(Name, Release, Actions, Now) end, Nodes, audit:names()).

replace(Name, {Kind, Arguments}, Actions, Nodes) ->
    act(Actions, Nodes),
    {Name, Old} = lists:keyfind(Name, 1, Nodes),
    test_nodes:kill(Old),
    Node = audit:emulator(Name, Kind, Arguments),
    Now = lists:keyreplace(Name, 1, Nodes, {Name, Node}),
    act(Actions, Now),
    All = [Each || {_, Each} <- Now],
    audit:made_alike(All),
    audit:all_connect(All),
    [Peer = test_nodes:call(X, erpc, call, [Peer, erlang, node, []]) || X <- All, Y <- All, X =/= Y, Peer <- [test_nodes:name(Y)]],
    io:format("~s began again, of OTP ~s ~ts: all agree~n", [Name, test_nodes:call(Node, erlang, system_info, [otp_release]), Arguments]),
    Now.

act(Actions, Nodes) ->
    [begin
         {Name, Node} = lists:nth(rand:uniform(length(Nodes)), Nodes),
         audit:act(Name, Node),
         receive after rand:uniform(4) - 1 -> ok end
     end || _ <- lists:seq(1, Actions)].
