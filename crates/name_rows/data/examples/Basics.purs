-- The smallest things that every module below uses.
module Basics
  ( class Eq
  , eq
  , class Ord
  , compare
  , class Semigroup
  , append
  , class Monoid
  , mempty
  , class Show
  , show
  , Ordering(..)
  , Unit
  , unit
  , identity
  , compose
  , flip
  , const
  , apply1
  , not
  , conj
  , otherwise
  , add
  , sub
  , mul
  , negate
  , (+)
  , (-)
  , (*)
  , (==)
  , (/=)
  , (<)
  , (<>)
  , (&&)
  , (<<<)
  , ($)
  ) where

infixl 6 add as +
infixl 6 sub as -
infixl 7 mul as *
infix 4 eq as ==
infix 4 notEq as /=
infix 4 lessThan as <
infixr 5 append as <>
infixr 3 conj as &&
infixr 9 compose as <<<
infixr 0 apply1 as $

foreign import add :: Int -> Int -> Int
foreign import sub :: Int -> Int -> Int
foreign import mul :: Int -> Int -> Int
foreign import negate :: Int -> Int
foreign import eqInt :: Int -> Int -> Boolean
foreign import lessInt :: Int -> Int -> Boolean
foreign import showInt :: Int -> String
foreign import appendString :: String -> String -> String

data Ordering = LT | EQ | GT

-- | A type with one value.
data Unit = Unit

unit :: Unit
unit = Unit

class Eq a where
  eq :: a -> a -> Boolean

class Eq a <= Ord a where
  compare :: a -> a -> Ordering

class Semigroup a where
  append :: a -> a -> a

class Semigroup m <= Monoid m where
  mempty :: m

class Show a where
  show :: a -> String

instance eqIntInstance :: Eq Int where
  eq = eqInt

instance eqBoolean :: Eq Boolean where
  eq true true = true
  eq false false = true
  eq _ _ = false

instance ordInt :: Ord Int where
  compare a b
    | lessInt a b = LT
    | eqInt a b = EQ
    | otherwise = GT

instance semigroupString :: Semigroup String where
  append = appendString

instance monoidString :: Monoid String where
  mempty = ""

instance showIntInstance :: Show Int where
  show = showInt

instance showBoolean :: Show Boolean where
  show b = if b then "true" else "false"

identity :: forall a. a -> a
identity x = x

compose :: forall a b c. (b -> c) -> (a -> b) -> a -> c
compose f g x = f (g x)

flip :: forall a b c. (a -> b -> c) -> b -> a -> c
flip f b a = f a b

const :: forall a b. a -> b -> a
const a _ = a

apply1 :: forall a b. (a -> b) -> a -> b
apply1 f x = f x

not :: Boolean -> Boolean
not true = false
not false = true

conj :: Boolean -> Boolean -> Boolean
conj a b = if a then b else false

otherwise :: Boolean
otherwise = true

notEq :: forall a. Eq a => a -> a -> Boolean
notEq a b = not (a == b)

lessThan :: forall a. Ord a => a -> a -> Boolean
lessThan a b = case compare a b of
  LT -> true
  _ -> false
