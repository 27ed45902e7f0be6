%% SPDX-License-Identifier: Apache-2.0
%% A node of the C library as functions of Erlang: c_src/distnode_nif.c.
-module(distnode_nif).
-export([load/0, new/6, drop/1, cookie/3, no_cookie/2, usual_cookie/2, allow/2, disallow/2, changes/1, forget/2]).
-export([dial/2, lost/3, gone/2, give_up/2]).
-export([arrive/5, opened/2, take_body/5, early_body/4]).
-export([cause/2, up_end/2, peers/1, challenge/0, recording/1, connection/2]).
-export_type([id/0, peer/0, closed/0, step/0, up/0, made/0]).

-type id() :: non_neg_integer().
-type peer() :: binary().
-type why() :: atom().
-type closed() :: none | {id(), why()}.
-type status() :: none | ok | ok_simultaneous | nok | not_allowed | alive | true | false.
-type up() :: none | {peer(), Common :: non_neg_integer(), Creation :: non_neg_integer() | unknown}.
%% What a step did: the frames that it says, the end that it closed, the status that it received, and who came up. An end that made
%% room for a newcomer is reported beside an error, too.
-type step() ::
    {step, id(), Bodies :: [binary()], closed(), Received :: status(), up()} | {error, atom(), closed()}.
%% The process that made the node gets such a message of each step of a connection's process that gave out an end, closed one or brought
%% one up. The messages come in the order of the steps. One that arrived holds this peer, and Closed is the end that made room for it; a
%% step of take_body comes with the controller of its end.
-type made() :: {distnode_made, reference(), pid(), step | port() | pid() | {arrived, id(), peer() | none, Closed :: closed()}, step()}.

%% Loads the library: from beside ebin, else from where the code server knows this application to be. It is called where the
%% distribution starts. That is before the server of files is there, and in a release before init runs what -on_load names, so
%% this module has no such function.
%%
%% Where the module is loaded anew, this is called again, or the first call of another function does so: the library takes the node over.
%% One that can't be loaded, or is of another version or layout, is refused, and the node goes on with the library that it has.
-spec load() -> ok | {refused, string()} | {error, string()}.
load() ->
    %% By its answer the code server has noted where a module comes from that it is about to load.
    Known = code:priv_dir(distnode),
    case load_from(filename:join([filename:dirname(code:which(?MODULE)), "..", "priv"])) of
        {error, {load_failed, _}} when is_list(Known) -> loaded(load_from(Known));
        Answer -> loaded(Answer)
    end.

load_from(Folder) -> load_file(filename:join(Folder, "distnode_nif")).

load_file(File) ->
    case erlang:load_nif(File, 0) of
        ok -> persistent_term:put(?MODULE, File);
        %% Another process has loaded it meanwhile, or a still newer module.
        {error, {Why, _}} when Why =:= reload; Why =:= old_code -> ok;
        Error -> Error
    end.

loaded(ok) -> ok;
loaded({error, {_, Text}}) -> stay(persistent_term:get(?MODULE, none), Text).

%% The library that the node has is in memory, whatever became of its file.
stay(none, Text) -> {error, Text};
stay(File, Text) ->
    error_logger:error_msg("** distnode: the new library is refused, so ~ts.so stays: ~ts **~n", [File, Text]),
    case load_file(File) of
        ok -> {refused, Text};
        {error, {_, Why}} -> {error, Why}
    end.

%% The module was loaded anew, and its library was not.
late(Function, Arguments) ->
    case load() of
        {error, Text} -> erlang:nif_error({not_loaded, Text});
        _ -> apply(?MODULE, Function, Arguments)
    end.

-define(LATE(Arguments), late(?FUNCTION_NAME, Arguments)).

%% Most ends that the node ever gives out: 0 stands for 4,294,967,295.
-spec new(peer(), binary(), Flags :: non_neg_integer(), Required :: non_neg_integer(), Creation :: non_neg_integer(),
          MostEnds :: non_neg_integer()) -> {ok, reference()} | {error, atom()}.
new(Name, Cookie, Flags, Required, Creation, MostEnds) -> ?LATE([Name, Cookie, Flags, Required, Creation, MostEnds]).

%% Each call is refused from then on, as NotANode.
-spec drop(reference()) -> ok.
drop(Node) -> ?LATE([Node]).

-spec cookie(reference(), peer(), binary()) -> ok | {error, atom()}.
cookie(Node, Peer, Cookie) -> ?LATE([Node, Peer, Cookie]).

%% The usual cookie is this peer's again: PeerInUse where it has an end.
-spec no_cookie(reference(), peer()) -> ok | {error, atom()}.
no_cookie(Node, Peer) -> ?LATE([Node, Peer]).

-spec usual_cookie(reference(), binary()) -> ok | {error, atom()}.
usual_cookie(Node, Cookie) -> ?LATE([Node, Cookie]).

-spec allow(reference(), peer()) -> ok | {error, atom()}.
allow(Node, Peer) -> ?LATE([Node, Peer]).

-spec disallow(reference(), peer()) -> ok | {error, atom()}.
disallow(Node, Peer) -> ?LATE([Node, Peer]).

%% How often a cookie or the allow list was changed.
-spec changes(reference()) -> non_neg_integer().
changes(Node) -> ?LATE([Node]).

-spec forget(reference(), id()) -> ok | {error, atom()}.
forget(Node, Below) -> ?LATE([Node, Below]).

-spec dial(reference(), peer()) -> step().
dial(Node, Peer) -> ?LATE([Node, Peer]).

%% Why is a number of dn_why. An end that is up stays so, and the error is ShownEnd.
-spec lost(reference(), id(), Why :: 1..15) -> step().
lost(Node, Id, Why) -> ?LATE([Node, Id, Why]).

%% The socket of this end, which came up, is gone.
-spec gone(reference(), id()) -> step().
gone(Node, Id) -> ?LATE([Node, Id]).

%% Loses the end by which this peer is about to connect, as GaveUp; `none`, and nothing is done, where it has none, or is up.
-spec give_up(reference(), peer()) -> step() | none.
give_up(Node, Peer) -> ?LATE([Node, Peer]).

%% ---- steps of the process that has the end

%% A connection came, which this process has, and this is its first frame. `changed`: nothing is done, since cookies or the allow list
%% were changed since. An error is one for which there is no end.
-spec arrive(reference(), Changes :: non_neg_integer(), binary(), Challenge :: non_neg_integer(), pid()) ->
    {arrived, id(), step()} | changed | {error, atom(), closed()}.
arrive(Node, Changes, Body, Challenge, Pid) -> ?LATE([Node, Changes, Body, Challenge, Pid]).

-spec opened(reference(), id()) -> step().
opened(Node, Id) -> ?LATE([Node, Id]).

%% Nothing is done where the frame would close this other end, which is up until it is gone.
-spec take_body(reference(), id(), binary(), Challenge :: non_neg_integer(), port() | pid()) -> step() | {held, id()}.
take_body(Node, Id, Body, Challenge, Controller) -> ?LATE([Node, Id, Body, Challenge, Controller]).

%% Nothing is done where the frame would bring the end up.
-spec early_body(reference(), id(), binary(), Challenge :: non_neg_integer()) -> step() | {ready, up()}.
early_body(Node, Id, Body, Challenge) -> ?LATE([Node, Id, Body, Challenge]).

%% ---- questions

%% Why this end is closed.
-spec cause(reference(), id()) -> why() | none.
cause(Node, Id) -> ?LATE([Node, Id]).

-spec up_end(reference(), peer()) -> id() | none.
up_end(Node, Peer) -> ?LATE([Node, Peer]).

-spec peers(reference()) -> [{peer(), id(), non_neg_integer(), non_neg_integer() | unknown}].
peers(Node) -> ?LATE([Node]).

-spec challenge() -> non_neg_integer().
challenge() -> ?LATE([]).

%% ---- a recording

%% From now on each call that changes a node is appended to this file: distnode_recording.
-spec recording(string()) -> ok | error.
recording(File) -> ?LATE([File]).

%% And so is this: the caller has a connection with these addresses.
-spec connection(term(), term()) -> ok.
connection(Own, Other) -> ?LATE([Own, Other]).
