%% SPDX-License-Identifier: Apache-2.0
%% Nodes of different releases with one another: of the installed OTP, and of those below the folders that ROOTS names. Each pair
%% of two releases, in either order: both with this carrier, and one of them an ordinary node.
-module(two_releases).
-export([main/0, main/1]).

main() -> main([]).

main(Words) ->
    Roots = string:lexemes(os:getenv("ROOTS"), " "),
    cases:main(fun(_) -> between([{installed, none} | [{Root, Root} || Root <- Roots]]) end, Words).

between(Roots) ->
    Releases = [{release(Root), Root} || {_, Root} <- Roots],
    [{lists:flatten(io_lib:format("~s_~s_with_~s_~s", [X, KindX, Y, KindY])),
      fun() -> cases:between(kind(RootX, KindX), kind(RootY, KindY)) end}
     || {X, RootX} <- Releases, {Y, RootY} <- Releases, RootX =/= RootY,
        {KindX, KindY} <- [{ours, ours}, {ours, otp}, {otp, ours}]].

kind(none, Kind) -> Kind;
kind(Root, Kind) -> {Root, Kind}.

release(none) -> erlang:system_info(otp_release);
release(Root) ->
    [Found] = filelib:wildcard(filename:join(Root, "usr/lib/erlang/releases/*/OTP_VERSION")),
    filename:basename(filename:dirname(Found)).
