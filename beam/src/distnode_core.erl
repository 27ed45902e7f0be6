%% SPDX-License-Identifier: Apache-2.0
%% Owns the one proved node of this emulator. The process of a connection makes the steps of its own end, under the node's lock, and
%% what others have to know of them is reported to this process in the order of the steps. Which process has which end and who waits
%% for whom is decided by distnode_links; here its actions are done, and what the node does is reported to it. Where this process
%% ends the distribution does, as it does where net_kernel ends.
-module(distnode_core).
-behaviour(gen_server).
-export([start_link/0, begun_anew/0, up_end/1, want/2, arrived/3, opened/1, take/1, early/2, refused/1, handed/1, lost/1]).
-export([table/0, counts/0]).
-export([init/1, handle_call/3, handle_cast/2, handle_info/2]).

-type id() :: distnode_nif:id().
-type access() :: distnode_access:access().
%% An end, for its process: it is the node's that has these flags.
-type own_end() :: #{id := id(), node := reference(), flags := non_neg_integer(), _ => _}.
%% An end that a frame, with a challenge that was drawn for it, brings up with this peer, these common flags and this creation.
-type info() :: #{id := id(), node := reference(), flags := non_neg_integer(), peer := binary(), common := non_neg_integer(),
                  creation := non_neg_integer() | unknown, frame := {binary(), non_neg_integer()}, _ => _}.
-type received() :: {more, [binary()]} | {closed, [binary()], Why :: atom(), Received :: atom()} | {ready, info()} | {error, atom()}.
-export_type([own_end/0, info/0, received/0]).

%% own: the cookies that the node has for peers while they have ends, and when each was lent; usual: for all others. shown: the
%% ends that came up, by the monitors of their controllers; held: the callers that wait until such an end is gone.
-record(st, {node :: reference() | undefined, flags = 0, links = distnode_links:new(), watched = #{}, shown = #{}, held = [],
             usual :: binary() | undefined, own = #{}, is_limited = false, forgotten = 0, counts = #{}}).

%% Causes are forgotten each so many ends; the library keeps cookies of their own for so many peers.
-define(FORGET_EACH, 65536).
-define(MOST_OWN, 1024).

%% What others read of the node, so that most connections that come need not ask: {node, Node, Changes, Flags, Usual} and, for each
%% peer that has a cookie of its own, {{cookie, Peer}, Cookie}; and how often the node has begun anew, {begun_anew, Times}.
-define(TABLE, ?MODULE).

%% `ignore` where another carrier has started it.
start_link() ->
    case gen_server:start_link({local, ?MODULE}, ?MODULE, [], []) of
        {error, {already_started, _}} -> ignore;
        Started -> Started
    end.

%% How often the node has begun anew.
-spec begun_anew() -> non_neg_integer().
begun_anew() -> ets:lookup_element(?TABLE, begun_anew, 2).

%% The end that is up with this peer.
-spec up_end(distnode_nif:peer()) -> id() | none.
up_end(Peer) ->
    case ets:lookup(?TABLE, node) of
        [{node, Node, _, _, _}] -> distnode_nif:up_end(Node, Peer);
        [] -> none
    end.

%% net_kernel has started the caller to set up a connection to this peer, with which this end was up by then. It hears
%% {distnode, {dial, own_end()}}, {distnode, {closed, Id, Why}} of that dial, {distnode, {failed, Code}}, {distnode, again} or, from the
%% process that has made an end ready, {distnode, {ready, ..}}.
-spec want(access(), Over :: id() | none) -> ok.
want(Access, Over) -> gen_server:call(?MODULE, {want, Access, Over}, infinity).

%% The caller has accepted a connection, and this is its first frame, with what this emulator says of the name in it. The end
%% that it gets, and what became of the frame; `Gone` where the node has begun anew since. Where the node has the very cookie, the caller
%% makes the step by itself.
-spec arrived(binary(), access() | none, Begun :: non_neg_integer()) -> {ok, own_end(), received()} | {error, atom()}.
arrived(Body, Access, Begun) ->
    case {node_as(Access), begun_anew()} of
        {{Node, Changes, Flags}, Begun} ->
            case arrive(Node, Changes, Flags, Body, self()) of
                {ok, _, _} = Arrived -> Arrived;
                _ -> ask_arrived(Body, Access, Begun)
            end;
        _ -> ask_arrived(Body, Access, Begun)
    end.

arrive(Node, Changes, Flags, Body, Pid) ->
    case distnode_nif:arrive(Node, Changes, Body, distnode_nif:challenge(), Pid) of
        {arrived, Id, Step} -> {ok, #{id => Id, node => Node, flags => Flags}, outcome(Step)};
        Other -> Other
    end.

ask_arrived(Body, Access, Begun) -> gen_server:call(?MODULE, {arrived, Body, Access, Begun}, infinity).

%% The node, where it has this cookie for this peer and needs no list.
node_as(#{peer := Peer, cookie := {ok, Cookie}, allowed := all}) ->
    case {ets:lookup(?TABLE, node), ets:lookup(?TABLE, {cookie, Peer})} of
        {[{node, Node, Changes, Flags, Cookie}], []} -> {Node, Changes, Flags};
        {[{node, Node, Changes, Flags, _}], [{_, Cookie}]} -> {Node, Changes, Flags};
        _ -> none
    end;
node_as(_) -> none.

%% The connection of an end that was dialled is there, and the caller says the name on it. Where this end is over, the setup whose
%% dial it was gets a message.
-spec opened(own_end()) -> received().
opened(#{id := Id, node := Node}) -> outcome(distnode_nif:opened(Node, Id)).

%% A frame came on the caller's end, and this is the step. Where it brings the end up net_kernel has agreed, and the end is over if the node
%% says other flags or another creation than net_kernel was told. Where an old connection of that peer is up in the node, the caller waits
%% until its socket is gone; the caller's own timer limits that. On an accepted end the words are the acknowledgement. The controller is
%% the port or process whose end is the end of the connection, for the emulator too.
-spec take(own_end()) -> {up, [binary()]} | received().
take(#{id := Id, node := Node, controller := Controller, frame := {Body, Challenge}} = End) ->
    case distnode_nif:take_body(Node, Id, Body, Challenge, Controller) of
        {step, Id, Bodies, _, _, {_, Common, Creation}} when Common =:= map_get(common, End), Creation =:= map_get(creation, End) ->
            {up, Bodies};
        {step, Id, _, _, _, {_, _, _}} -> {error, 'OtherFlags'};
        {held, Shown} ->
            ok = gen_server:call(?MODULE, {end_shown, Shown}, infinity),
            take(End);
        Step -> outcome(Step)
    end.

%% The same where net_kernel has not been asked yet.
%% `ready`: it would bring the end up, and nothing was done yet; whoever keeps or gets the end asks net_kernel.
-spec early(binary(), own_end()) -> received().
early(Body, #{id := Id, node := Node} = End) ->
    Challenge = distnode_nif:challenge(),
    case distnode_nif:early_body(Node, Id, Body, Challenge) of
        {ready, {Peer, Common, Creation}} ->
            {ready, End#{peer => Peer, common => Common, creation => Creation, frame => {Body, Challenge}}};
        Step -> outcome(Step)
    end.

%% What a step that brought nobody up did.
outcome({step, Id, Bodies, {Id, Why}, Received, none}) -> {closed, Bodies, Why, Received};
outcome({step, _, Bodies, _, _, none}) -> {more, Bodies};
outcome({error, Code, _}) -> {error, Code}.

%% The next step brings the caller's end up, and net_kernel would not take the peer from it, since it has a setup of its own for it.
-spec refused(id()) -> {give, pid()} | retry | gone.
refused(Id) -> gen_server:call(?MODULE, {refused, Id}, infinity).

%% The caller has handed the socket of this end to the process that it was given.
-spec handed(id()) -> ok.
handed(Id) -> gen_server:cast(?MODULE, {handed, Id, self()}).

-spec lost(id()) -> ok | gone.
lost(Id) -> gen_server:call(?MODULE, {lost, Id}, infinity).

%% For tests and for whoever looks for a fault: the peers that are up, the ends, the setups that wait, and how many peers have a cookie
%% of their own.
table() -> gen_server:call(?MODULE, table, infinity).
counts() -> gen_server:call(?MODULE, counts, infinity).

init([]) ->
    process_flag(priority, high),
    case distnode_nif:load() of
        {error, Text} ->
            error_logger:error_msg("** distnode: the library distnode_nif can't be loaded, so there is no distribution: ~ts **~n", [Text]),
            {stop, {shutdown, no_library}};
        _ ->
            ok = distnode_recording:start(),
            ?TABLE = ets:new(?TABLE, [named_table, protected, {read_concurrency, true}]),
            true = ets:insert(?TABLE, {begun_anew, 0}),
            {ok, #st{}}
    end.

handle_call({want, Access, Over}, {Pid, _}, St0) ->
    case with_node(St0) of
        {ok, St} -> {reply, ok, publish(after_report({want, Access, Over, Pid}, watch(Pid, St)))};
        {error, Code} ->
            Pid ! {distnode, {failed, Code}},
            {reply, ok, St0}
    end;
handle_call({arrived, Body, Access, Begun}, {Pid, _}, St0) ->
    case Begun =:= begun_anew() andalso with_node(St0) of
        false -> {reply, {error, 'Gone'}, St0};
        {ok, St1} ->
            {Answer, St} = accept(Body, Access, Pid, St1),
            {reply, Answer, publish(St)};
        {error, Code} -> {reply, {error, Code}, St0}
    end;
handle_call({refused, Id}, {Pid, _}, St0) ->
    {Answer, St} = report({vetoed, Id, Pid}, note(vetoed, settle(Id, Pid, St0))),
    {reply, Answer, St};
handle_call({lost, Id}, {Pid, _}, St0) ->
    {Answer, St} = report({given_up, Id, Pid}, St0),
    {reply, Answer, St};
handle_call({end_shown, Id}, From, #st{shown = Shown, held = Held, links = Links} = St) ->
    case lists:keymember(Id, 1, maps:values(Shown)) of
        true -> {noreply, kill(distnode_links:owner(Id, Links), St#st{held = [{Id, From} | Held]})};
        false -> {reply, ok, St}
    end;
handle_call(table, _, St) -> {reply, table(St), St};
handle_call(counts, _, St) -> {reply, St#st.counts, St};
handle_call(_, _, St) -> {reply, {error, unknown_call}, St}.

handle_cast({handed, _, _} = Event, St) -> {noreply, after_report(Event, note(handed, St))};
handle_cast(_, St) -> {noreply, St}.

handle_info({distnode_made, Node, Pid, What, Step}, #st{node = Node} = St) -> {noreply, follow(What, Pid, Step, St)};
handle_info({distnode_made, _, Pid, _, _}, St) ->
    %% Of a node that was given up since.
    exit(Pid, kill),
    {noreply, St};
handle_info({'DOWN', Ref, _, _, _}, #st{shown = Shown} = St) when is_map_key(Ref, Shown) ->
    {{Id, Peer}, Left} = maps:take(Ref, Shown),
    {noreply, gone(Id, Peer, St#st{shown = Left})};
handle_info({'DOWN', Ref, process, Pid, _}, #st{watched = Watched} = St) ->
    case Watched of
        #{Pid := Ref} -> {noreply, after_report({down, Pid}, St#st{watched = maps:remove(Pid, Watched)})};
        #{} -> {noreply, St}
    end;
handle_info(_, St) -> {noreply, St}.

%% ---- steps

%% A connection for which the node gets a cookie or a name of the list first.
accept(Body, Access, Pid, St0) ->
    case prepare(Access, St0) of
        {ok, #st{node = Node, flags = Flags} = St} ->
            case arrive(Node, distnode_nif:changes(Node), Flags, Body, Pid) of
                {error, 'Spent', _} -> {{error, 'Spent'}, begin_anew(St)};
                {error, Code, _} -> {{error, Code}, came(Access, note({incoming, Code}, St))};
                Arrived -> {Arrived, came(Access, St)}
            end;
        {{error, Code}, St} -> {{error, Code}, note({prepare, Code}, St)}
    end.

%% What a process did with its own end.
follow({arrived, Id, Peer, Room}, Pid, Step, St0) ->
    St = after_report({accepted, Id, Pid, Peer}, watch(Pid, note(incoming, St0))),
    closed(Room, none, settle(Id, none, follow_step(Pid, Step, forget(Id, St))));
follow(Controller, Pid, {step, Id, _, _, _, {Peer, _, _}}, #st{shown = Shown} = St) ->
    Kind = case is_port(Controller) of true -> port; false -> process end,
    after_report({came_up, Id, Pid}, note(came_up, St#st{shown = Shown#{monitor(Kind, Controller) => {Id, Peer}}}));
follow(_, Pid, Step, St) -> follow_step(Pid, Step, St).

follow_step(Pid, {step, _, _, Closed, _, none}, St) -> closed(Closed, Pid, St);
follow_step(Pid, {error, Code, Closed}, St) -> closed(Closed, Pid, note({refused, Code}, St)).

%% Another step may have closed an end, and that isn't reported to the machine yet, or was before the end had arrived.
settle(Id, By, #st{node = Node, links = Links} = St) ->
    case distnode_links:owner(Id, Links) =/= none andalso distnode_nif:cause(Node, Id) of
        IsOpen when IsOpen =:= false; IsOpen =:= none -> St;
        Why -> closed({Id, Why}, By, St)
    end.

closed(none, _, St) -> St;
closed({Id, Why}, Pid, #st{links = Links} = St) ->
    take_back(distnode_links:peer(Id, Links), after_report({closed, Id, Why, Pid}, note({closed, Why}, St))).

%% The socket of an end that came up is gone: only now the node has it closed, and a frame that was held for it goes on.
gone(Id, Peer, #st{node = Node, held = Held} = St) ->
    _ = distnode_nif:gone(Node, Id),
    {Waiting, Left} = lists:partition(fun({Shown, _}) -> Shown =:= Id end, Held),
    _ = [gen_server:reply(From, ok) || {_, From} <- Waiting],
    take_back(Peer, after_report({gone, Id, Peer}, note({lost, ended}, St#st{held = Left}))).

%% ---- an event is reported to the machine, and its actions are done

report(Event, #st{links = Links} = St) ->
    {Answer, Actions, Next} = distnode_links:event(Event, Links),
    {Answer, lists:foldl(fun act/2, St#st{links = Next}, Actions)}.

after_report(Event, St) -> element(2, report(Event, St)).

act({send, Pid, {dial, Id}}, St) ->
    Pid ! {distnode, {dial, #{id => Id, node => St#st.node, flags => St#st.flags}}},
    St;
act({send, Pid, What}, St) ->
    Pid ! {distnode, What},
    St;
act({kill, Pid}, St) -> kill(Pid, St);
act(_, #st{node = undefined} = St) ->
    %% The node has begun anew since: nothing is open, and nobody waits.
    St;
act({lose, Id, Peer, Why}, St) ->
    %% A step of its process may have closed it, which has not been reported to this process yet.
    _ = distnode_nif:lost(St#st.node, Id, why(Why)),
    take_back(Peer, note({lost, Why}, St));
act({dial, Access}, St) -> dial(Access, St).

kill(none, St) -> St;
kill(Pid, St) ->
    exit(Pid, kill),
    note(killed, St).

why(ended) -> 1;
why(gave_up) -> 4.

dial(#{peer := Peer} = Access, St0) ->
    case suit(Access, St0) of
        {ok, St} -> take_back(Peer, dialled(Peer, distnode_nif:dial(St#st.node, Peer), St));
        {{error, Code}, St} -> after_report({refused, Peer, Code}, St)
    end.

dialled(Peer, {step, Id, [], Closed, _, none}, St) ->
    forget(Id, closed(Closed, none, after_report({dialled, Peer, Id}, note(dial, St))));
dialled(Peer, {error, 'Busy', Closed}, St) ->
    Up = distnode_nif:up_end(St#st.node, Peer),
    after_report({busy, Peer, Up}, closed(Closed, none, note(busy, St)));
dialled(_, {error, 'Spent', _}, St) -> begin_anew(St);
dialled(Peer, {error, Code, Closed}, St) ->
    after_report({refused, Peer, Code}, closed(Closed, none, note({dial, Code}, St))).

watch(Pid, #st{watched = Watched} = St) when is_map_key(Pid, Watched) -> St;
watch(Pid, #st{watched = Watched} = St) -> St#st{watched = Watched#{Pid => monitor(process, Pid)}}.

note(What, #st{counts = Counts} = St) -> St#st{counts = Counts#{What => maps:get(What, Counts, 0) + 1}}.

%% ---- the node

%% It is made at the first step, when this emulator has its name and its creation.
with_node(#st{node = undefined} = St) -> made(node(), distnode_access:usual(), St);
with_node(St) -> {ok, St}.

made(nonode@nohost, _, _) -> {error, 'NameTooShort'};
made(Own, Usual, St) ->
    {erts_dflags, Default, Mandatory, _, _, _} = erts_internal:get_dflags(),
    Flags = case net_kernel:publish_on_node(Own) of true -> Default bor 1; _ -> Default end,
    Cookie = usual_or_none(Usual),
    case distnode_nif:new(atom_to_binary(Own, utf8), Cookie, Flags, Mandatory, erts_internal:get_creation(), most_ends()) of
        {ok, Node} ->
            {ok, St#st{node = Node, flags = Flags, usual = Cookie, is_limited = false, forgotten = 0}};
        {error, Code} -> {error, Code}
    end.

%% A cookie that the library can't use: nobody has one that was drawn, and peers with cookies of their own connect all the same.
usual_or_none({ok, Cookie}) -> Cookie;
usual_or_none({error, _}) -> << <<(integer_to_binary(distnode_nif:challenge(), 16))/binary>> || _ <- [1, 2, 3, 4] >>.

%% A parameter of kernel, as others of the distribution: it begins before any other application is loaded.
most_ends() -> application:get_env(kernel, distnode_most_ends, 0).

%% All numbers of ends were given out, as after 25 days of 2,000 connections a second: every connection ends, and a new node is
%% made with the next attempt, once all their sockets are gone, as where the emulator had begun anew with its creation.
begin_anew(#st{node = Node} = St0) ->
    error_logger:warning_msg("** distnode: all numbers of connections were given out; all are closed, and numbered anew **~n"),
    ok = distnode_nif:drop(Node),
    #st{shown = Shown} = St = after_report(spent, came_up_last(note(spent, St0))),
    _ = [receive {'DOWN', Ref, _, _, _} -> ok end || Ref <- maps:keys(Shown)],
    _ = ets:update_counter(?TABLE, begun_anew, 1),
    true = ets:delete(?TABLE, node),
    true = ets:match_delete(?TABLE, {{cookie, '_'}, '_'}),
    St#st{node = undefined, own = #{}, shown = #{}, held = []}.

%% Who came up before the node was dropped, and is not known here yet.
came_up_last(#st{node = Node} = St) ->
    receive {distnode_made, Node, Pid, Controller, {step, _, _, _, _, {_, _, _}} = Step} ->
            came_up_last(follow(Controller, Pid, Step, St))
    after 0 -> St
    end.

%% Others read of the node what it is like now.
publish(#st{node = undefined} = St) -> St;
publish(#st{node = Node, flags = Flags, usual = Usual} = St) ->
    Row = {node, Node, distnode_nif:changes(Node), Flags, Usual},
    _ = [ets:insert(?TABLE, Row) || ets:lookup(?TABLE, node) =/= [Row]],
    St.

forget(Id, #st{forgotten = Forgotten} = St) when Id - Forgotten < ?FORGET_EACH -> St;
forget(Id, St) ->
    ok = distnode_nif:forget(St#st.node, Id),
    note(forgot, St#st{forgotten = Id}).

%% ---- cookies and the allow list, before the step that they matter to

prepare(none, St) -> {ok, St};
prepare(Access, St) ->
    case suit(Access, St) of
        {ok, St1} -> {ok, open_list(Access, St1)};
        Error -> Error
    end.

%% The name was said: what its end needs stays with the node.
came(none, St) -> St;
came(#{peer := Peer} = Access, St) -> take_back(Peer, close_list(Access, St)).

%% Gives the node the cookie that the emulator has for this peer. Where the peer is up, the one that it has stays.
suit(#{cookie := {error, _} = Error}, St) -> {Error, St};
suit(#{peer := Peer, cookie := {ok, Cookie}}, St0) ->
    case cookie_of(Peer, St0) of
        Cookie -> {ok, St0};
        _ ->
            St = suit_usual(distnode_access:usual(), St0),
            case cookie_of(Peer, St) of
                Cookie -> {ok, St};
                _ -> lend(Peer, Cookie, St)
            end
    end.

cookie_of(Peer, #st{own = Own}) when is_map_key(Peer, Own) -> element(1, map_get(Peer, Own));
cookie_of(_, #st{usual = Usual}) -> Usual.

%% A peer has a cookie of its own while it has an end, whoever has said its name: that shows no cookie yet.
lend(Peer, Cookie, #st{node = Node, own = Own} = St) ->
    case distnode_nif:cookie(Node, Peer, Cookie) of
        ok ->
            true = ets:insert(?TABLE, {{cookie, Peer}, Cookie}),
            {ok, St#st{own = Own#{Peer => {Cookie, erlang:unique_integer([monotonic])}}}};
        {error, 'PeerInUse'} -> {ok, note(cookie_in_use, St)};
        {error, 'Full'} -> lend_after(lists:sort([{At, Other} || {Other, {_, At}} <- maps:to_list(Own)]), Peer, Cookie, St);
        Error -> {Error, St}
    end.

%% All cookies that the library keeps are lent: the peer that has had one for the longest, and is not up, makes room.
lend_after([], _, _, St) -> {{error, 'Full'}, St};
lend_after([{_, Other} | More], Peer, Cookie, #st{node = Node} = St) ->
    case distnode_nif:give_up(Node, Other) of
        {step, _, _, Closed, _, _} -> lend(Peer, Cookie, take_back(Other, closed(Closed, none, St)));
        none -> lend_after(More, Peer, Cookie, St)
    end.

%% The last end of this peer is closed, or it has none: its cookie is the usual one again.
take_back(Peer, #st{node = Node, own = Own} = St) when is_map_key(Peer, Own) ->
    case distnode_nif:no_cookie(Node, Peer) of
        ok ->
            true = ets:delete(?TABLE, {cookie, Peer}),
            publish(St#st{own = maps:remove(Peer, Own)});
        {error, _} -> St
    end;
take_back(_, St) -> St.

%% Who is up under the old one keeps it as its own, and the node takes the new one for all others. Where more are up than the library
%% keeps cookies, it does not until some of them have gone; whoever comes meanwhile is lent the new one.
suit_usual({ok, Usual}, #st{node = Node, usual = Old, own = Own} = St0) when Usual =/= Old ->
    St = case [Peer || {Peer, _, _, _} <- distnode_nif:peers(Node), not is_map_key(Peer, Own)] of
             Up when length(Up) + map_size(Own) =< ?MOST_OWN -> lists:foldl(fun(Peer, Now) -> element(2, lend(Peer, Old, Now)) end, St0, Up);
             _ -> St0
         end,
    case distnode_nif:usual_cookie(Node, Usual) of
        ok -> St#st{usual = Usual};
        {error, _} -> note(usual_in_use, St)
    end;
suit_usual(_, St) -> St.

%% The list has names, hosts and parts of names, and dist_util reads it; the node's own has the one name of this step.
open_list(#{allowed := all}, St) -> St;
open_list(#{peer := Peer, allowed := IsAllowed}, #st{node = Node} = St) ->
    St1 = limited(St),
    _ = [distnode_nif:allow(Node, Peer) || IsAllowed],
    St1.

limited(#st{is_limited = true} = St) -> St;
limited(#st{node = Node} = St) ->
    Own = atom_to_binary(node(), utf8),
    ok = distnode_nif:allow(Node, Own),
    ok = distnode_nif:disallow(Node, Own),
    St#st{is_limited = true}.

close_list(_, #st{node = undefined} = St) -> St;
close_list(#{peer := Peer, allowed := true}, #st{node = Node} = St) ->
    _ = distnode_nif:disallow(Node, Peer),
    St;
close_list(_, St) -> St.

%% ---- what is reported of it

table(#st{node = undefined}) -> #{up => [], open => 0, wants => [], lent => 0};
table(#st{node = Node, links = Links, own = Own}) ->
    #{up => [{Peer, Id, Common, Creation, distnode_links:stage(Id, Links), distnode_links:owner(Id, Links)}
             || {Peer, Id, Common, Creation} <- distnode_nif:peers(Node)],
      open => length(distnode_links:ends(Links)),
      wants => distnode_links:wanted(Links),
      lent => map_size(Own)}.
