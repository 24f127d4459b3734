@echo off
rem Starts the tool of this name by a Python that stands here or in the folder above, as an installation has it, or in the path.
setlocal
set "python=python"
if exist "%~dp0..\python.exe" set "python=%~dp0..\python.exe"
if exist "%~dp0python.exe" set "python=%~dp0python.exe"
set "tool=%~dp0%~n0"
if not exist "%tool%" set "tool=%~dp0..\lib\p21\%~n0"
"%python%" "%tool%" %*
exit /b %errorlevel%
