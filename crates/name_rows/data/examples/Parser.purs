-- A parser of arithmetic by combinators.
module Parser (Parser, runParser, Expr(..), expression, evaluate, parseExpression) where

import Basics (Unit, unit, ($), (+), (-), (*), (==), (<), (&&), not, otherwise)
import Control (class Apply, class Applicative, class Bind, class Functor, class Monad, apply, bind, discard, map, pure, (<$>), (<*>))
import List as L
import List (List(..), (:))
import Maybe (Maybe(..), (<|>))

type Source = List Int

-- | What was read, and what is left.
type Read a = Maybe { value :: a, rest :: Source }

newtype Parser a = Parser (Source -> Read a)

runParser :: forall a. Parser a -> Source -> Read a
runParser (Parser run) = run

instance functorParser :: Functor Parser where
  map f p = Parser \s -> case runParser p s of
    Nothing -> Nothing
    Just { value, rest } -> Just { value: f value, rest }

instance applyParser :: Apply Parser where
  apply pf pa = Parser \s ->
    case runParser pf s of
      Nothing -> Nothing
      Just { value: f, rest } ->
        case runParser pa rest of
          Nothing -> Nothing
          Just r -> Just r { value = f r.value }

instance applicativeParser :: Applicative Parser where
  pure value = Parser \rest -> Just { value, rest }

instance bindParser :: Bind Parser where
  bind p f = Parser \s -> case runParser p s of
    Just { value, rest } -> runParser (f value) rest
    Nothing -> Nothing
  discard p f = Parser \s -> case runParser p s of
    Just { value, rest } -> runParser (f value) rest
    Nothing -> Nothing

instance monadParser :: Monad Parser

satisfy :: (Int -> Boolean) -> Parser Int
satisfy test = Parser go
  where
  go (c : rest) | test c = Just { value: c, rest }
  go _ = Nothing

char :: Int -> Parser Unit
char c = do
  _ <- satisfy (_ == c)
  pure unit

orElse :: forall a. Parser a -> Parser a -> Parser a
orElse p q = Parser \s -> runParser p s <|> runParser q s

infixl 3 orElse as </>

many :: forall a. Parser a -> Parser (List a)
many p = some p </> pure Nil

some :: forall a. Parser a -> Parser (List a)
some p = do
  first <- p
  rest <- many p
  pure (first : rest)

data Expr
  = Number Int
  | Plus Expr Expr
  | Minus Expr Expr
  | Times Expr Expr

digit :: Parser Int
digit = (_ - 0x30) <$> satisfy isDigit
  where
  isDigit c = not (c < 0x30) && c < 0x3A

number :: Parser Expr
number = do
  digits <- some digit
  let
    value = L.foldl step 0 digits
    step n d = n * 10 + d
  pure $ Number value

parens :: forall a. Parser a -> Parser a
parens p = do
  char 0x28
  inside <- p
  char 0x29
  pure inside

factor :: Parser Expr
factor = number </> parens (pure unit `andThen` \_ -> expression)

andThen :: forall a b. Parser a -> (a -> Parser b) -> Parser b
andThen = bind

chainLeft :: Parser Expr -> Parser (Expr -> Expr -> Expr) -> Parser Expr
chainLeft operand operator = do
  first <- operand
  more first
  where
  more left = another left </> pure left
  another left = do
    combine <- operator
    right <- operand
    more (combine left right)

term :: Parser Expr
term = chainLeft factor do
  char 0x2A
  pure Times

expression :: Parser Expr
expression = chainLeft term (plus </> minus)
  where
  plus = do
    char 0x2B
    pure Plus
  minus = ado
    char 0x2D
    in Minus

evaluate :: Expr -> Int
evaluate = case _ of
  Number n -> n
  Plus a b -> evaluate a + evaluate b
  Minus a b -> evaluate a - evaluate b
  Times a b -> evaluate a * evaluate b

parseExpression :: Source -> Maybe Expr
parseExpression source = case runParser expression source of
  Just { value, rest: Nil } -> Just value
  _ -> Nothing
