%% SPDX-License-Identifier: Apache-2.0
%% Brings net_kernel and the emulator to where the node is. dist_util does that, as for any carrier, but hears a script in
%% place of the socket: what the peer has said on this end, in the shortest form. So it asks net_kernel as ever, which may
%% refuse whom the node is ready to let in and can let nobody in whom the node has refused; and all that follows (setnode,
%% nodeup, ticks, statistics) is OTP's own code, whatever its release.
%%
%% The process of the end itself makes the step that brings it up in the node. Of an accepted peer that is where dist_util says the
%% acknowledgement: net_kernel has agreed by then, an old connection is about to end, and dist_util refuses nobody any more.
%% Of a dialled peer it is made where dist_util waits for the acknowledgement.
-module(distnode_script).
-export([other_started/6, we_started/6]).

-include_lib("kernel/include/dist_util.hrl").

-define(KEY, distnode_script).

%% The exit of a holder that dist_util ends. The sender of ssl takes a plain `shutdown` for its supervisor's, and waits for 5 seconds.
-define(ENDED, {shutdown, distnode}).

%% Of an own dial dist_util begins once the name was said, and the peer's frames are read here: so it gets as far as it does without the
%% acknowledgement while the peer looks at the reply.
%%
%% Both end with the connection, or throw {distnode, nok}: net_kernel has a setup for that peer; {distnode, already}: it is
%% about to let another connection of that peer in, for which dist_util ends before it has said a word; {distnode, gone}: the
%% node has closed the end meanwhile. An own dial throws {distnode, {message, What}} where a message came to this process
%% instead of a frame, with which the dial is over; {distnode, {closed, Why, Status}} or {distnode, {failed, Why}}.
-spec other_started(module(), pid(), term(), map(), {node(), [term()]}, pid()) -> no_return().
other_started(Transport, Kernel, Socket, Info, {MyNode, Allowed}, Timer) ->
    Data = data(Transport, Kernel, Socket, MyNode, Timer),
    start(accepted, Transport, Socket, Info),
    try dist_util:handshake_other_started(Data#hs_data{allowed = Allowed})
    catch
        exit:shutdown ->
            case get(?KEY) of
                #{said := []} -> throw({distnode, already});
                _ -> exit(?ENDED)
            end
    end.

-spec we_started(module(), pid(), term(), map(), {node(), node(), term()}, pid()) -> no_return().
we_started(Transport, Kernel, Socket, Info, {MyNode, Node, Type}, Timer) ->
    Data = data(Transport, Kernel, Socket, MyNode, Timer),
    start(dialled, Transport, Socket, Info),
    try dist_util:handshake_we_started(Data#hs_data{other_node = Node, other_version = 6, request_type = Type})
    catch
        exit:shutdown -> exit(?ENDED)
    end.

data(Transport, Kernel, Socket, MyNode, Timer) ->
    #hs_data{f_handshake_complete = Complete} = Data = distnode_carrier:hs_data(Transport, Socket),
    Data#hs_data{
      kernel_pid = Kernel, this_node = MyNode, timer = Timer, this_flags = 0,
      f_send = fun(_, Words) -> send(iolist_to_binary(Words)) end,
      f_recv = fun(_, _, _) -> recv() end,
      f_handshake_complete =
          fun(Controller, Node, Handle) ->
                  erase(?KEY),
                  Complete(Controller, Node, Handle)
          end}.

%% ---- the script: what was sent and received so far decides what comes next

start(Side, Transport, Socket, #{cookie := {ok, Cookie}} = Info) ->
    put(?KEY, Info#{side => Side, transport => Transport, socket => Socket, controller => Transport:controller(Socket), said => [],
                    cookie := Cookie}).

send(Words) ->
    #{side := Side, said := Said} = Before = get(?KEY),
    Script = Before#{said := [Words | Said]},
    keep(Script),
    send(Side, Words, Script).

keep(Script) ->
    put(?KEY, Script),
    ok.

send(accepted, <<"snok">>, _) -> throw({distnode, nok});
send(accepted, <<$s, _/binary>>, _) -> ok;
send(accepted, <<$N, Flags:64, Challenge:32, _/binary>>, Script) -> challenged(Flags, Challenge, Script);
send(accepted, <<$a, _/binary>>, Script) -> admitted(Script);
send(dialled, <<$N, Flags:64, _/binary>>, Script) -> challenged(Flags, none, Script);
send(dialled, <<$r, Challenge:32, Shown/binary>>, Script) -> replied(Challenge, Shown, Script).

recv() ->
    #{side := Side, said := Said} = Script = get(?KEY),
    recv(Side, Said, Script).

%% Of an accepted peer: its name, `true` where net_kernel asks whether it lives, its reply.
recv(accepted, [], Script) -> {ok, name(Script)};
recv(accepted, [<<"salive">>], _) -> {ok, "strue"};
recv(accepted, [<<$N, _/binary>> | _], Script) -> {ok, [$r, 0, 0, 0, 0 | digest(Script)]};
%% Of a dialled peer: a status, its challenge, its acknowledgement.
recv(dialled, [<<$N, _/binary>>], Script) ->
    keep(Script#{said := [status]}),
    {ok, "sok"};
recv(dialled, [status], #{common := _} = Script) -> challenge(Script);
recv(dialled, [status], Script) -> challenge(await_challenge(Script));
recv(dialled, [<<$r, _/binary>> | _], #{active := _} = Script) ->
    Digest = digest(Script),
    await_acknowledgement(Script),
    {ok, [$a | Digest]};
recv(dialled, [<<$r, _/binary>> | _], Script) ->
    case admitted(Script) of
        ok -> {ok, [$a | digest(Script)]};
        Error -> Error
    end.

%% ---- the frames of an own dial

%% Until the node says the reply to the peer's challenge.
await_challenge(Script) ->
    Body = next(activate(Script), Script),
    case take(Body, Script) of
        %% The end is closed. dist_util finds which flags the peer lacks, says so, and ends the dial.
        {closed, [], 'WrongFlags', _} -> foreseen(Body, Script);
        Step -> answer_challenge(Body, go_on(Step, Script), Script)
    end.

answer_challenge(Body, Bodies, Script) ->
    case {say(Bodies, Script), [reply || <<$r, _/binary>> <- Bodies]} of
        {ok, []} -> await_challenge(Script);
        {ok, _} ->
            Foreseen = foreseen(Body, Script),
            keep(Foreseen#{active => activate(Script)}),
            Foreseen;
        _ -> throw({distnode, {failed, write_failed}})
    end.

await_acknowledgement(#{active := Active} = Script) ->
    case take(next(Active, Script), Script) of
        {up, Bodies} -> say(Bodies, Script);
        Other ->
            _ = say(go_on(Other, Script), Script),
            await_acknowledgement(Script#{active := activate(Script)})
    end.

%% The timer of dist_util ends this process where none comes.
next({error, _}, _) -> throw({distnode, {failed, ended}});
next(ok, #{id := Id, transport := Transport, socket := Socket} = Script) ->
    case distnode_shake:frame(Transport, Socket, infinity) of
        {frame, Body} -> Body;
        {distnode, {closed, Other, _}} when Other =/= Id -> next(ok, Script);
        {distnode, Message} -> throw({distnode, {message, Message}});
        Why -> throw({distnode, {failed, Why}})
    end.

activate(#{transport := Transport, socket := Socket}) -> Transport:setopts(Socket, [{active, once}]).

say(Bodies, #{transport := Transport, socket := Socket}) -> distnode_shake:say(Transport, Socket, Bodies).

take(Body, Script) -> distnode_core:take(Script#{frame => {Body, distnode_nif:challenge()}}).

go_on({more, Bodies}, _) -> Bodies;
go_on({closed, Bodies, Why, Status}, Script) ->
    _ = say(Bodies, Script),
    throw({distnode, {closed, Why, Status}});
go_on({error, 'Gone'}, _) -> throw({distnode, gone});
go_on({error, Code}, _) -> throw({distnode, {failed, Code}}).

%% What the end will be up with, if the peer acknowledges: the node has the last word (distnode_core:take/1).
foreseen(<<$N, Flags:64, _Challenge:32, Creation:32, _/binary>>, Script) -> foreseen(Flags, Creation, Script);
foreseen(<<$n, _Version:16, Flags:32, _/binary>>, Script) -> foreseen(Flags, unknown, Script).

foreseen(Flags, Creation, #{flags := Own} = Script) -> Script#{common => Own band distnode_access:whole(Flags), creation => Creation}.

%% dist_util announces what the node has announced: one set of flags, for all peers. It would do otherwise of a hidden dial, and of a peer
%% outside of a hidden global group.
challenged(Flags, Challenge, #{flags := Flags} = Script) -> keep(Script#{challenge => Challenge});
challenged(_, _, #{peer := Peer}) ->
    error_logger:error_msg("** Connection attempt refused, node ~ts is outside of the hidden global group (global_groups) of this node, "
                           "and distnode shows this node to all of its peers or to none **~n", [distnode_access:quoted(Peer)]),
    exit(distnode_other_flags).

admitted(#{id := Id} = Script) ->
    case distnode_core:take(Script) of
        {up, Bodies} -> say(Bodies, Script);
        _ ->
            _ = distnode_core:lost(Id),
            throw({distnode, gone})
    end.

name(#{peer := Peer, common := Common} = Script) ->
    binary_to_list(<<$N, Common:64, (creation(Script)):32, (byte_size(Peer)):16, Peer/binary>>).

challenge(#{peer := Peer, common := Common} = Script) ->
    {ok, binary_to_list(<<$N, Common:64, 0:32, (creation(Script)):32, (byte_size(Peer)):16, Peer/binary>>)}.

%% A peer of version 5 sends no creation, and OTP puts 0 in its place.
creation(#{creation := unknown}) -> 0;
creation(#{creation := Creation}) -> Creation.

%% The digest that dist_util expects. That the peer has shown the right one is the node's decision, made already.
digest(#{cookie := Cookie, challenge := Challenge}) -> binary_to_list(digest(Cookie, Challenge)).

digest(Cookie, Challenge) -> erlang:md5([Cookie | integer_to_list(Challenge)]).

%% The cookie is the one that was asked for at the name of an accepted peer, or before the dial. Where it was changed before dist_util asks,
%% an accepted peer is refused before its acknowledgement. A dialled peer may have said that by now: the digest of the challenge 0 shows
%% which cookie dist_util was given.
replied(Challenge, Shown, #{peer := Peer, cookie := Asked} = Script) ->
    Cookie = case digest(Asked, 0) of
                 Shown -> Asked;
                 _ -> atom_to_list(erlang:get_cookie(binary_to_atom(Peer, latin1)))
             end,
    keep(Script#{challenge => Challenge, cookie => Cookie}).
