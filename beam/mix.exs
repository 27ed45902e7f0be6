# SPDX-License-Identifier: Apache-2.0
# The library comes from the folder that DISTNODE names: see the Makefile.
defmodule Mix.Tasks.Compile.DistnodeNif do
  use Mix.Task.Compiler

  def run(_arguments) do
    case System.cmd("make", ["nif"], stderr_to_stdout: true, into: IO.stream()) do
      # Before this the folder priv may not have been there, and mix has linked what was.
      {_, 0} -> Mix.Project.build_structure()
      _ -> {:error, []}
    end
  end
end

defmodule Distnode.MixProject do
  use Mix.Project

  def project do
    [
      app: :distnode,
      version: "0.2.0",
      language: :erlang,
      compilers: [:distnode_nif] ++ Mix.compilers(),
      erlc_options: [:debug_info, :warnings_as_errors],
      deps: []
    ]
  end

  def application, do: [registered: [:distnode_core]]
end
