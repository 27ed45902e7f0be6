%% SPDX-License-Identifier: Apache-2.0
%% Which process has which end, which setup waits for which peer, and whose acknowledgement is held back: a pure machine. An
%% event leads to an answer for the process that reported it, to actions, and to the next state. It knows no socket, no clock and
%% no process dictionary; distnode_core reports to it what happened and does what it says.
%%
%% An end has one owner, the process that holds its socket, and goes through these stages. Its owner makes the steps of the
%% handshake itself, so the machine learns a little later of those that concern others, in the order in which they were made.
%%
%%   shaking    its owner reads the handshake, frame by frame, and asks net_kernel before the step that brings it up
%%   ready      net_kernel wouldn't take it from the process that accepted it: whoever gets it makes the step that brings it up
%%   up         that step was made: net_kernel had agreed, and its owner brings the emulator up, or has
%%
%% A setup is a process of net_kernel that wants a peer. Where net_kernel won't take an accepted end, since it has a setup for that
%% peer, the setup gets that end: net_kernel's row and the end that comes up need not have begun together. Until then it
%% dials, or it waits for an end that somebody else has with that peer.
-module(distnode_links).
-export([new/0, event/2, owner/2, stage/2, peer/2, ends/1, wanted/1, invariant/1]).
-export_type([links/0, event/0, action/0, answer/0]).

-type id() :: distnode_nif:id().
-type peer() :: distnode_nif:peer().
-type access() :: distnode_access:access().
-type stage() :: shaking | ready | up.

-record(link, {owner :: pid(), peer = none :: peer() | none, stage = shaking :: stage(), giver = none :: pid() | none}).
%% over: the end with that peer that was up when net_kernel started the setup.
-record(want, {setup :: pid(), access :: access(), over :: id() | none, how = asking :: asking | {dialling, id()} | waiting}).
%% held: what a process has, so that its end is dealt with without a look at all ends.
-record(links, {ends = #{} :: #{id() => #link{}},
                wants = #{} :: #{peer() => #want{}},
                held = #{} :: #{pid() => [{end_of | given_by, id()} | {want, peer()}]}}).
-opaque links() :: #links{}.

-type event() ::
    {want, access(), Over :: id() | none, Setup :: pid()} | % net_kernel wants the peer of this access; or a setup asks again
    {dialled, peer(), id()} |                 % what became of the action {dial, Peer}: a new end,
    {busy, peer(), Up :: id() | none} |       % no end, since the peer has one, and which one is up,
    {refused, peer(), Code :: atom()} |       % or no end, for another reason
    {accepted, id(), pid(), peer() | none} |  % a connection came, and got this end, which holds this peer
    {vetoed, id(), pid()} |                   % the next step brings this end up, and net_kernel wouldn't take it from its owner: it
                                              % has a setup of its own
    {handed, id(), pid()} |                   % the giver of this end has handed its socket to the owner
    {came_up, id(), pid()} |                  % its owner has made that step: net_kernel had agreed
    {closed, id(), Why :: atom(), pid() | none} | % the node has closed this end, in a step of this process
    {given_up, id(), pid()} |                 % its owner gives it up
    {gone, id(), peer()} |                    % it came up, and its socket is gone
    {down, pid()} |                           % a process has ended
    spent.                                    % the node has no numbers left and begins anew
-type action() ::
    {send, pid(), term()} |                   % a message {distnode, Term}: {dial, Id}, {closed, Id, Why}, {failed, Code}, again
    {kill, pid()} |                           % its end is to go, and net_kernel holds it: its socket goes with it
    {lose, id(), peer() | none, Why :: atom()} | % report it to the node
    {dial, access()}.                         % have the node dial, and report what became of it
-type answer() :: ok | {give, Setup :: pid()} | retry | gone.

-spec new() -> links().
new() -> #links{}.

-spec event(event(), links()) -> {answer(), [action()], links()}.
event({want, Access, Over, Setup}, L) -> want(Access, Over, Setup, L);
event({dialled, Peer, Id}, L) -> dialled(Peer, Id, L);
event({busy, Peer, Up}, L) -> busy(Peer, Up, L);
event({refused, Peer, Code}, L) -> refused(Peer, Code, L);
event({accepted, Id, Pid, Peer}, L) -> {ok, [], put_link(Id, #link{owner = Pid, peer = Peer}, L)};
event({vetoed, Id, Pid}, L) -> vetoed(Id, Pid, L);
event({handed, Id, Giver}, L) -> handed(Id, Giver, L);
event({came_up, Id, Pid}, L) -> came_up(Id, Pid, L);
event({closed, Id, Why, By}, L) -> closed(Id, Why, By, L);
event({given_up, Id, Pid}, L) -> given_up(Id, Pid, L);
event({gone, Id, Peer}, L) -> gone(Id, Peer, L);
event({down, Pid}, L) -> down(Pid, L);
event(spent, L) -> spent(L).

%% ---- questions

-spec owner(id(), links()) -> pid() | none.
owner(Id, L) -> case link_of(Id, L) of #link{owner = Pid} -> Pid; none -> none end.

-spec stage(id(), links()) -> stage() | none.
stage(Id, L) -> case link_of(Id, L) of #link{stage = Stage} -> Stage; none -> none end.

-spec peer(id(), links()) -> peer() | none.
peer(Id, L) -> case link_of(Id, L) of #link{peer = Peer} -> Peer; none -> none end.

-spec ends(links()) -> [id()].
ends(#links{ends = Ends}) -> maps:keys(Ends).

-spec wanted(links()) -> [{peer(), pid(), asking | {dialling, id()} | waiting}].
wanted(#links{wants = Wants}) -> [{Peer, Setup, How} || {Peer, #want{setup = Setup, how = How}} <- maps:to_list(Wants)].

%% ---- a setup wants a peer

%% A setup that was given an end while it asked wants nothing more. One that another has replaced is over at net_kernel.
want(#{peer := Peer} = Access, Over, Setup, L) ->
    case [Id || {end_of, Id} <- holdings(Setup, L), peer(Id, L) =:= Peer, stage(Id, L) =/= shaking] of
        [] -> {ok, [{dial, Access}], put_want(Peer, #want{setup = Setup, access = Access, over = Over}, L)};
        [_ | _] -> {ok, [], L}
    end.

dialled(Peer, Id, L) ->
    case want_of(Peer, L) of
        #want{setup = Setup} = Want ->
            L1 = change_want(Peer, Want#want{how = {dialling, Id}}, L),
            {ok, [{send, Setup, {dial, Id}}], put_link(Id, #link{owner = Setup, peer = Peer}, L1)};
        none -> {ok, [{lose, Id, Peer, gave_up}], L}
    end.

%% net_kernel starts a setup only where it counts the peer as down. So an end that was up by then is over there, and its socket goes with
%% its process. Each end with that peer is one to wait for.
busy(Peer, Up, L) ->
    case want_of(Peer, L) of
        none -> {ok, [], L};
        #want{over = Over} = Want -> {ok, [{kill, owner(Up, L)} || Up =/= none, Up =:= Over], change_want(Peer, Want#want{how = waiting}, L)}
    end.

refused(Peer, Code, L) ->
    case want_of(Peer, L) of
        #want{setup = Setup} -> {ok, [{send, Setup, {failed, Code}}], drop_want(Peer, L)};
        none -> {ok, [], L}
    end.

%% ---- a handshake goes on

%% The setup may have been killed since, and then its end is reported before long, or net_kernel may not have started it yet.
vetoed(Id, Pid, L) ->
    case link_of(Id, L) of
        #link{owner = Pid, stage = Stage, peer = Peer} = Link when Peer =/= none, Stage =:= shaking orelse Stage =:= ready ->
            L1 = change(Id, Link#link{stage = ready}, L),
            case want_of(Peer, L1) of
                #want{} = Want -> give(Id, Want, L1);
                none -> {retry, [], L1}
            end;
        _ -> {gone, [], L}
    end.

%% The setup's own dial, where it has one beside this end, is given up.
give(Id, #want{setup = Setup, how = How}, L) ->
    #link{owner = Giver, peer = Peer} = Link = link_of(Id, L),
    L1 = put_link(Id, Link#link{owner = Setup, giver = Giver}, drop_want(Peer, L)),
    Dials = [Dial || {dialling, Dial} <- [How], Dial =/= Id] ++
        [Dial || {end_of, Dial} <- holdings(Setup, L1), stage(Dial, L1) =:= shaking],
    {Actions, L2} = lists:foldl(fun(Dial, {Done, Now}) ->
                                        {More, Next} = lose_dial(Dial, Setup, Now),
                                        {Done ++ More, Next}
                                end, {[], L1}, lists:usort(Dials)),
    {{give, Setup}, Actions, L2}.

lose_dial(Dial, Setup, L) ->
    {Actions, L1} = lose(Dial, gave_up, L),
    {Actions ++ [{send, Setup, {closed, Dial, 'Crossed'}}], L1}.

handed(Id, Giver, L) ->
    case link_of(Id, L) of
        #link{giver = Giver} = Link -> {ok, [], put_link(Id, Link#link{giver = none}, L)};
        _ -> {ok, [], L}
    end.

%% net_kernel has its row for the owner, so its want is over, and a setup that it had before is about to end. An end that was given up
%% here in between goes with its process.
came_up(Id, Pid, L) ->
    case link_of(Id, L) of
        #link{owner = Pid, stage = Stage, peer = Peer} = Link when Stage =:= shaking; Stage =:= ready ->
            L1 = change(Id, Link#link{stage = up}, L),
            case want_of(Peer, L1) of
                #want{setup = Pid} -> {ok, [], drop_want(Peer, L1)};
                _ -> {ok, [], L1}
            end;
        _ -> {gone, [{kill, Pid}], L}
    end.

%% ---- an end is over

%% It was not up. Its process gets a message, but for the one whose step it was, which has the answer.
closed(Id, Why, By, L) ->
    case link_of(Id, L) of
        none -> {ok, [], L};
        #link{owner = Owner, peer = Peer} ->
            L1 = drop_link(Id, L),
            {ok, [{send, Owner, {closed, Id, Why}} || Owner =/= By] ++ again(Peer, L1), L1}
    end.

given_up(Id, Pid, L) ->
    case link_of(Id, L) of
        #link{owner = Pid} ->
            {Actions, L1} = lose(Id, gave_up, L),
            {ok, Actions, L1};
        _ -> {gone, [], L}
    end.

gone(Id, Peer, L) ->
    L1 = drop_link(Id, L),
    {ok, again(Peer, L1), L1}.

%% An end that came up stays until its socket is gone. One whose giver has ended without handing it over has no socket any more, and its
%% new owner asks anew.
down(Pid, L) ->
    {Actions, L1} = lists:foldl(fun(Held, {Done, Now}) ->
                                        {More, Next} = left(Held, Pid, Now),
                                        {Done ++ More, Next}
                                end, {[], L}, holdings(Pid, L)),
    {ok, Actions, L1}.

left({want, Peer}, _, L) -> {[], drop_want(Peer, L)};
left({end_of, Id}, _, L) ->
    case stage(Id, L) of
        up -> {[], L};
        _ -> lose(Id, ended, L)
    end;
left({given_by, Id}, _, L) ->
    #link{owner = Owner} = link_of(Id, L),
    {Actions, L1} = lose(Id, ended, L),
    {[{send, Owner, again} | Actions], L1}.

lose(Id, Why, L) ->
    case link_of(Id, L) of
        none -> {[], L};
        #link{peer = Peer} ->
            L1 = drop_link(Id, L),
            {[{lose, Id, Peer, Why} | again(Peer, L1)], L1}
    end.

%% An end with this peer is over: a setup that waits for it may dial now.
again(Peer, L) ->
    case want_of(Peer, L) of
        #want{how = waiting, access = Access} -> [{dial, Access}];
        _ -> []
    end.

spent(#links{held = Held}) ->
    {ok, [{kill, Pid} || Pid <- maps:keys(Held)], new()}.

%% ---- the state: each change of an end or a want keeps what its processes hold

link_of(Id, #links{ends = Ends}) -> maps:get(Id, Ends, none).
want_of(Peer, #links{wants = Wants}) -> maps:get(Peer, Wants, none).
holdings(Pid, #links{held = Held}) -> maps:get(Pid, Held, []).

%% Of an end whose owner and giver stay.
change(Id, Link, #links{ends = Ends} = L) -> L#links{ends = Ends#{Id := Link}}.

%% Of a want whose setup stays.
change_want(Peer, Want, #links{wants = Wants} = L) -> L#links{wants = Wants#{Peer := Want}}.

put_link(Id, Link, L) ->
    #links{ends = Ends} = L1 = drop_link(Id, L),
    hold(Link#link.owner, {end_of, Id}, hold(Link#link.giver, {given_by, Id}, L1#links{ends = Ends#{Id => Link}})).

drop_link(Id, #links{ends = Ends} = L) ->
    case link_of(Id, L) of
        none -> L;
        #link{owner = Owner, giver = Giver} ->
            release(Owner, {end_of, Id}, release(Giver, {given_by, Id}, L#links{ends = maps:remove(Id, Ends)}))
    end.

put_want(Peer, Want, L) ->
    #links{wants = Wants} = L1 = drop_want(Peer, L),
    hold(Want#want.setup, {want, Peer}, L1#links{wants = Wants#{Peer => Want}}).

drop_want(Peer, #links{wants = Wants} = L) ->
    case want_of(Peer, L) of
        none -> L;
        #want{setup = Setup} -> release(Setup, {want, Peer}, L#links{wants = maps:remove(Peer, Wants)})
    end.

hold(none, _, L) -> L;
hold(Pid, What, #links{held = Held} = L) -> L#links{held = Held#{Pid => [What | holdings(Pid, L)]}}.

release(none, _, L) -> L;
release(Pid, What, #links{held = Held} = L) ->
    case lists:delete(What, holdings(Pid, L)) of
        [] -> L#links{held = maps:remove(Pid, Held)};
        Rest -> L#links{held = Held#{Pid => Rest}}
    end.

%% What holds of every state, for tests: `held` is what ends and wants say.
-spec invariant(links()) -> boolean().
invariant(#links{ends = Ends, wants = Wants, held = Held}) ->
    Said = [{Pid, {end_of, Id}} || {Id, #link{owner = Pid}} <- maps:to_list(Ends)] ++
        [{Pid, {given_by, Id}} || {Id, #link{giver = Pid}} <- maps:to_list(Ends), Pid =/= none] ++
        [{Pid, {want, Peer}} || {Peer, #want{setup = Pid}} <- maps:to_list(Wants)],
    Kept = [{Pid, What} || {Pid, Whats} <- maps:to_list(Held), What <- Whats],
    lists:sort(Said) =:= lists:sort(Kept).
